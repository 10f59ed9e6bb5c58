//! JSON that is put together freely, right or wrong.

use crate::random::Random;

/// A JSON value; leaves are written as they are.
#[derive(Clone, Debug)]
pub enum Node {
    Leaf(String),
    Array(Vec<Node>),
    /// Names are written between quotes as they are.
    Object(Vec<(String, Node)>),
    /// A value that is wrong, with its answer number: one of 20 to 26.
    Wrong(u32, Box<Node>),
    /// A value whose member name is wrong.
    Misnamed(u32, Box<Node>),
}

/// A text, and the wrong values in it.
pub struct Marked {
    pub text: Vec<u8>,
    /// The answer number and the place of each, in the order of the text.
    pub wrong: Vec<(u32, usize)>,
}

impl Node {
    /// A string; what it holds is written as it is.
    pub fn string(raw: impl AsRef<str>) -> Node {
        Node::Leaf(format!("\"{}\"", raw.as_ref()))
    }

    /// A number.
    pub fn number(number: i64) -> Node {
        Node::Leaf(number.to_string())
    }

    /// `true`, `false`, `null`, or anything else.
    pub fn leaf(text: &str) -> Node {
        Node::Leaf(text.to_string())
    }

    /// The number of nodes, this one too.
    pub fn size(&self) -> usize {
        1 + match self {
            Node::Leaf(_) => 0,
            Node::Array(elements) => elements.iter().map(Node::size).sum(),
            Node::Object(members) => members.iter().map(|(_, value)| value.size()).sum(),
            Node::Wrong(_, node) | Node::Misnamed(_, node) => node.size(),
        }
    }

    /// The node with so many before it, in the order of the text.
    pub fn nth(&mut self, mut before: usize) -> &mut Node {
        if before == 0 {
            return self;
        }
        before -= 1;
        let children: Vec<&mut Node> = match self {
            Node::Leaf(_) => Vec::new(),
            Node::Array(elements) => elements.iter_mut().collect(),
            Node::Object(members) => members.iter_mut().map(|(_, value)| value).collect(),
            Node::Wrong(_, node) | Node::Misnamed(_, node) => vec![node],
        };
        for child in children {
            let size = child.size();
            if before < size {
                return child.nth(before);
            }
            before -= size;
        }
        unreachable!("a node has as many as its size")
    }

    /// The text, with space as it comes.
    pub fn text(&self, random: &mut Random) -> Vec<u8> {
        // Most texts are narrow; some have space everywhere.
        let wide = random.once_in(6);
        self.marked(wide, random).text
    }

    /// The text and its wrong values; a wide one has space everywhere.
    pub fn marked(&self, wide: bool, random: &mut Random) -> Marked {
        let mut writer = Writer { out: Vec::new(), wrong: Vec::new(), wide, random };
        writer.value(self);
        Marked { text: writer.out, wrong: writer.wrong }
    }
}

/// Writes nodes, one after the other.
struct Writer<'r> {
    out: Vec<u8>,
    wrong: Vec<(u32, usize)>,
    wide: bool,
    random: &'r mut Random,
}

impl Writer<'_> {
    fn value(&mut self, node: &Node) {
        self.space();
        self.bare(node);
        self.space();
    }

    /// A value right here, so that a mark before it is its place.
    fn bare(&mut self, node: &Node) {
        match node {
            Node::Leaf(text) => self.out.extend(text.as_bytes()),
            Node::Array(elements) => self.listed(b"[]", elements, Self::value),
            Node::Object(members) => self.listed(b"{}", members, Self::member),
            Node::Wrong(number, node) => {
                self.mark(*number);
                self.bare(node);
            }
            Node::Misnamed(_, node) => self.bare(node),
        }
    }

    fn member(&mut self, (name, value): &(String, Node)) {
        self.space();
        if let Node::Misnamed(number, _) = value {
            self.mark(*number);
        }
        self.out.extend(format!("\"{name}\"").as_bytes());
        self.space();
        self.out.push(b':');
        self.value(value);
    }

    /// Things between brackets, with commas between them.
    fn listed<T>(&mut self, [open, close]: &[u8; 2], things: &[T], write: fn(&mut Self, &T)) {
        self.out.push(*open);
        for (place, thing) in things.iter().enumerate() {
            if place > 0 {
                self.out.push(b',');
            }
            write(self, thing);
        }
        self.space();
        self.out.push(*close);
    }

    fn mark(&mut self, number: u32) {
        self.wrong.push((number, self.out.len()));
    }

    fn space(&mut self) {
        while self.wide && self.random.once_in(3) {
            self.out.push(self.random.pick(b" \t\n\r"));
        }
    }
}
