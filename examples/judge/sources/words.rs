/// How many words a text has.
fn counted(text: &str) -> usize {
    text.split_whitespace().count()
}

struct Counter {
    count: usize,
}

fn main() {
    let it = Counter { count: counted("a rose is a rose") };
    println!("{}", it.count);
}
