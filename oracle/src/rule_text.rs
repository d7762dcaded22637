//! Rule texts: what a text reads as, and the rule file that it stands for.
//!
//! Written from the words of the request alone. The reading comes from a chart of all parts of the text, and
//! the place of a text that does not fit from trying out endings.

mod chart;
mod place;
pub mod signs;
#[cfg(test)]
mod tests;

use crate::refusal::Refusal;
use crate::rule::{kind, FormulaNode, Rule, NODE_LIMIT, TEMPORAL_LIMIT};
use chart::Chart;

/// The most bytes of a text.
pub const TEXT_LIMIT: usize = 1024;
/// The most bytes of a file: 64 nodes, of which 31 have two operands, 32 are signals and one is a prefix.
pub const LONGEST_FILE: usize = 6 + 31 * 6 + 33 * 5;

/// The number of the refusal of a text that does not fit, or is too long.
pub const NO_TEXT: u8 = 15;
/// The number of the refusal of more nodes than a rule file has.
pub const TOO_MANY_NODES: u8 = 16;

/// A node of a text, which may have more of them than a rule file.
#[derive(Clone, Debug, PartialEq, Eq)]
pub struct TextNode {
    pub kind: u8,
    pub signal: u8,
    /// The numbers of its operands, all below its own.
    pub operands: Vec<usize>,
}

/// The nodes of a text, one for each occurrence: left operand first, the operator after its operands.
pub fn read(text: &[u8]) -> Result<Vec<TextNode>, Refusal> {
    if text.len() > TEXT_LIMIT {
        return Err(Refusal::new(NO_TEXT, TEXT_LIMIT));
    }
    let chart = Chart::of(text);
    match chart.whole()[..] {
        [] => Err(Refusal::new(NO_TEXT, place::longest_hopeful(text))),
        [root] => Ok(in_order(&chart, root)),
        _ => panic!("{:?} has several readings", String::from_utf8_lossy(text)),
    }
}

fn in_order(chart: &Chart, root: usize) -> Vec<TextNode> {
    let mut nodes = Vec::new();
    push_in_order(chart, root, &mut nodes);
    nodes
}

/// Pushes a node after its operands; the answer is its number.
fn push_in_order(chart: &Chart, number: usize, nodes: &mut Vec<TextNode>) -> usize {
    let node = chart.node(number);
    let operands =
        node.operands.iter().map(|&operand| push_in_order(chart, operand, nodes)).collect();
    nodes.push(TextNode { kind: node.kind, signal: node.signal, operands });
    nodes.len() - 1
}

/// Writes the rule file of a text to the front of `output` and returns its length. Bytes past the file keep
/// their values; a refusal changes none.
pub fn write(text: &[u8], signals: u8, output: &mut [u8]) -> Result<usize, Refusal> {
    put(&file_of(text, signals)?, output)
}

/// Puts a file to the front of `output`, if there is room for it.
pub fn put(file: &[u8], output: &mut [u8]) -> Result<usize, Refusal> {
    let front = output.get_mut(..file.len()).ok_or(Refusal::new(10, 0))?;
    front.copy_from_slice(file);
    Ok(file.len())
}

/// The rule file of a text, whatever its length.
pub fn file_of(text: &[u8], signals: u8) -> Result<Vec<u8>, Refusal> {
    let nodes = read(text)?;
    let refuse = |number| Err(Refusal::new(number, 0));
    if !(1..=4).contains(&signals) {
        return refuse(4);
    }
    if nodes.len() > NODE_LIMIT.into() {
        return refuse(TOO_MANY_NODES);
    }
    if nodes.iter().any(|node| node.kind == kind::SIGNAL && node.signal >= signals) {
        return refuse(7);
    }
    let nodes: Vec<FormulaNode> = nodes.iter().map(node_of_file).collect();
    if nodes.iter().filter(|node| node.is_temporal()).count() > TEMPORAL_LIMIT {
        return refuse(8);
    }
    Ok(Rule::new(signals, nodes).to_bytes())
}

/// The node as a rule file has it, of which there are at most 64.
fn node_of_file(node: &TextNode) -> FormulaNode {
    let number = |operand: usize| u8::try_from(operand).expect("a rule has at most 64 nodes");
    match node.operands[..] {
        [] => FormulaNode::new(node.kind, node.signal, 0),
        [operand] => FormulaNode::new(node.kind, number(operand), 0),
        [left, right] => FormulaNode::new(node.kind, number(left), number(right)),
        _ => unreachable!("a node has at most two operands"),
    }
}
