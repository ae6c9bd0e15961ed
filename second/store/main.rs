//! Makes stored questions with the second solver alone: `store solve` and `store mark` print the files of `stored/` in which capitals matter,
//! solve-capitals.txt and mark-capitals.txt; `store overlap` prints the one in which the chain join's second alternative does,
//! solve-overlap.txt. (The older ones were made in the same way, by earlier states of this program: solve.txt and mark.txt when there were
//! eight kinds, solve-brothers.txt and mark-brothers.txt before node 0 was the document node, solve-document.txt and mark-document.txt before
//! capitals counted as small letters. Of the counts in these request (ix) changed some.)
//! Questions are drawn at random, always the same ones, and kept until each sort has its share.

mod answers;
mod overlaps;
mod questions_to_solve;
mod share;

fn main() {
    let words: Vec<String> = std::env::args().skip(1).collect();
    match words.iter().map(String::as_str).collect::<Vec<_>>().as_slice() {
        ["solve"] => questions_to_solve::store(),
        ["mark"] => answers::store(),
        ["overlap"] => overlaps::store(),
        _ => {
            eprintln!("usage: store solve | store mark | store overlap");
            std::process::exit(2);
        }
    }
}
