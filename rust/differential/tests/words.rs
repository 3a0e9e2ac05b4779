//! The words of the C header are the wrapper's: each refusal has the same text in both.

use thonxiliko::Refusal;

const HEADER: &str = include_str!("../../../include/thonxiliko.h");

/// The texts of `thx_refusal_text` in their order: done, each refusal, and all other numbers.
fn texts() -> Vec<&'static str> {
    let (_, from_there) = HEADER.split_once("*thx_refusal_text(").expect("the function");
    let (body, _) = from_there.split_once("\n}\n").expect("its end");
    let returned = body.split("return \"").skip(1);
    returned.map(|text| text.split_once('"').expect("the text's end").0).collect()
}

#[test]
fn refusals_have_the_words_of_the_header() {
    let refusals: Vec<Refusal> = (1..).map_while(Refusal::from_number).collect();
    let texts = texts();
    assert_eq!(texts.len(), refusals.len() + 2);
    assert_eq!(texts[0], "done");
    for (refusal, text) in refusals.iter().zip(&texts[1..]) {
        assert_eq!(refusal.to_string(), format!("refused {}: {text}", refusal.number()));
    }
}
