//! Wrong values after space and letters of several bytes: places are counted in bytes. `^` marks the value, as in `answers`.

/// Texts and their answer numbers.
pub fn all() -> [(u32, &'static str); 9] {
    [
        // Space of every kind before the text, and around names, colons and commas.
        (22, "\r\n\t {\n\t\"@type\" : \"Event\" ,\r\n \"uid\":\"1\",\"updated\":\"2024-01-01T00:00:00Z\",\"start\":\"2024-01-01T00:00:00\",\"duration\" \n:\t\r\n ^\"P\" }\n"),
        // Letters of two, three and four bytes, in a value before it and in a name before it.
        (20, r#"{"title":"ä€𝄞","@type":"Event","uid":"1","updated":"2024-01-01T00:00:00Z","start":^7}"#),
        (20, r#"{"ä€𝄞":"","@type":"Event","uid":"1","updated":"2024-01-01T00:00:00Z","start":^7}"#),
        // The value itself has such letters, and a later one is wrong, too.
        (21, r#"{"@type":"Event","uid":"ß","updated":^"2024-01-01T00:00:00ß","start":"ß"}"#),
        // An override's name, with space before it and before its colon.
        (21, "{\"@type\":\"Event\",\"uid\":\"1\",\"updated\":\"2024-01-01T00:00:00Z\",\"start\":\"2024-01-01T00:00:00\",\"recurrenceOverrides\" : {\n\t^\"Ä\"\r:{} } }"),
        // Objects with a member missing, and an entry in a list.
        (26, "{\"@type\":\"Event\",\"uid\":\"1\",\"updated\":\"2024-01-01T00:00:00Z\",\"start\":\"2024-01-01T00:00:00\",\"recurrenceRules\":[\n\n^{ } ]}"),
        (23, "{\"description\":\"€\\u20ac\\\"\",\"@type\":\"Event\",\"uid\":\"1\",\"updated\":\"2024-01-01T00:00:00Z\",\"start\":\"2024-01-01T00:00:00\",\n\"recurrenceRules\":[{\"@type\":\"RecurrenceRule\",\"frequency\":\"daily\",\"byMonthDay\":[ 1 ,\t^0 ]}]}"),
        // Brackets, quotes and names in strings are no part of the text's form.
        (25, r#"{"title":"{\"byMonth\": [], [\\","@type":"Event","uid":"]}","updated":"2024-01-01T00:00:00Z","start":"2024-01-01T00:00:00","recurrenceRules":[{"@type":"RecurrenceRule","frequency":"daily","byMonth":^[]}]}"#),
        // What is not read may hold anything, also under names that are read elsewhere.
        (24, r#"{"locations":{"duration":"P","freeBusyStatus":[]},"@type":"Event","uid":"1","updated":"2024-01-01T00:00:00Z","start":"2024-01-01T00:00:00","frequency":1,"freeBusyStatus":^"x"}"#),
    ]
}
