//! Pairs of events that a planner must not be able to tell apart.

use crate::model::Model;
use crate::overrides::OverrideModel;
use crate::random::Random;
use crate::spelling::text;

/// Two private events that agree on dates, both parts of each length, marks and zone: they differ in texts, identity, spelling and order.
pub fn private(random: &mut Random) -> (Model, [Vec<u8>; 2]) {
    let model = Model::random(random);
    let texts = [(); 2].map(|()| {
        let mut own = model.clone();
        own.privacy = random.pick(&["private", "confidential", "", "x"]).to_string();
        change_texts(&mut own, random);
        own.text(random)
    });
    (model, texts)
}

/// Two secret events that need not have anything else in common; the model is the first one's.
pub fn secret(random: &mut Random) -> (Model, [Vec<u8>; 2]) {
    let models = [(); 2].map(|()| Model { privacy: "secret".to_string(), ..Model::random(random) });
    let texts = [models[0].text(random), models[1].text(random)];
    let [first, _] = models;
    (first, texts)
}

/// New texts of the event and of its overrides.
fn change_texts(model: &mut Model, random: &mut Random) {
    model.title = random.once_in(2).then(|| text(random));
    model.description = random.once_in(2).then(|| text(random));
    for (_, own) in &mut model.overrides {
        if let OverrideModel::Patch(patch) = own {
            patch.title = random.once_in(2).then(|| random.once_in(2).then(|| text(random)));
            patch.description = random.once_in(2).then(|| random.once_in(2).then(|| text(random)));
        }
    }
}
