//! Reads each file that is named into a tree, as `xmllint --noout` does: what the program is measured beside.

fn main() {
    for path in std::env::args().skip(1) {
        let text = std::fs::read_to_string(&path).expect("a file that can be read");
        roxmltree::Document::parse(&text).expect("a well-formed page");
    }
}
