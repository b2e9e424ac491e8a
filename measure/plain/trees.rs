//! Trees of elements (BER, X.690).

const MAX_LEVELS: usize = 32;

/// An element: the first octet of its tag, where its contents begin and end, and how many nodes its
/// tree has. That octet tells all tags apart that are known here, whose numbers are below 31.
pub struct Node {
    tag: u8,
    start: usize,
    end: usize,
    size: usize,
}

/// Reads octets that spell exactly one element. The nodes' room is used again from tree to tree.
pub fn read_tree<'a>(octets: &'a [u8], nodes: &'a mut Vec<Node>) -> Option<Element<'a>> {
    nodes.clear();
    let behind = read_node(octets, 0, 1, nodes)?;
    Elements { octets, nodes }.next().filter(|_| behind == octets.len())
}

/// Reads an element that begins at a place, and returns the place behind it.
fn read_node(octets: &[u8], from: usize, level: usize, nodes: &mut Vec<Node>) -> Option<usize> {
    let (tag, at) = read_tag(octets, from)?;
    let (length, start) = read_length(octets, at)?;
    let (index, is_constructed) = (nodes.len(), tag & 0x20 != 0);
    if level > MAX_LEVELS || (length.is_none() && !is_constructed) {
        return None;
    }
    nodes.push(Node { tag, start, end: start, size: 1 });
    let mut end = start;
    let behind = match length {
        Some(length) => {
            let contents = octets.get(..start + length)?;
            while is_constructed && end < contents.len() {
                end = read_node(contents, end, level + 1, nodes)?;
            }
            end = contents.len();
            end
        }
        None => {
            while octets.get(end..end + 2)? != [0, 0] {
                end = read_node(octets, end, level + 1, nodes)?;
            }
            end + 2
        }
    };
    nodes[index].end = end;
    nodes[index].size = nodes.len() - index;
    Some(behind)
}

/// The first octet of a tag, and the place behind the tag.
fn read_tag(octets: &[u8], from: usize) -> Option<(u8, usize)> {
    let first = *octets.get(from)?;
    if first & 0x1F != 0x1F {
        return (first != 0).then_some((first, from + 1));
    }
    let more = octets[from + 1..].iter().take(4).position(|octet| octet & 0x80 == 0)?;
    let further = &octets[from + 1..][..=more];
    let number = further.iter().fold(0, |number, octet| number << 7 | u32::from(octet & 0x7F));
    let is_good = further[0] != 0x80 && number >= 31;
    is_good.then_some((first, from + 1 + further.len()))
}

/// A length, none for the indefinite form, and the place behind it.
fn read_length(octets: &[u8], at: usize) -> Option<(Option<usize>, usize)> {
    match *octets.get(at)? {
        length @ 0..=0x7F => Some((Some(usize::from(length)), at + 1)),
        0x80 => Some((None, at + 1)),
        form @ 0x81..=0x84 => {
            let behind = at + 1 + usize::from(form & 0x0F);
            let length = octets.get(at + 1..behind)?;
            Some((Some(length.iter().fold(0, |n, &octet| n << 8 | usize::from(octet))), behind))
        }
        _ => None,
    }
}

/// An element of a tree: the first octet of its tag, and what it holds, as octets and as elements.
/// A primitive one holds no elements.
#[derive(Clone, Copy)]
pub struct Element<'a> {
    pub tag: u8,
    pub octets: &'a [u8],
    pub children: Elements<'a>,
}

/// Elements that stand side by side, as nodes in the order of their octets.
#[derive(Clone, Copy, Default)]
pub struct Elements<'a> {
    octets: &'a [u8],
    nodes: &'a [Node],
}

impl<'a> Iterator for Elements<'a> {
    type Item = Element<'a>;

    fn next(&mut self) -> Option<Element<'a>> {
        let node = self.nodes.first()?;
        let (own, behind) = self.nodes.split_at(node.size);
        self.nodes = behind;
        let octets = &self.octets[node.start..node.end];
        Some(Element { tag: node.tag, octets, children: Elements { nodes: &own[1..], ..*self } })
    }
}

impl<'a> Elements<'a> {
    pub fn is_empty(self) -> bool {
        self.nodes.is_empty()
    }

    /// Takes the first element, where it has this tag.
    pub fn take_element(&mut self, tag: u8) -> Option<Element<'a>> {
        self.nodes.first().filter(|node| node.tag == tag)?;
        self.next()
    }

    /// The contents of the first element, where it has this tag, which is that of a primitive one.
    pub fn take_octets(&mut self, tag: u8) -> Option<&'a [u8]> {
        self.take_element(tag).map(|element| element.octets)
    }

    /// The same, where it is one octet. Otherwise nothing is taken.
    pub fn take_octet(&mut self, tag: u8) -> Option<u8> {
        let mut behind = *self;
        let &[octet] = behind.take_octets(tag)? else { return None };
        *self = behind;
        Some(octet)
    }

    /// The only element, where it has this tag.
    pub fn only(mut self, tag: u8) -> Option<Element<'a>> {
        self.take_element(tag).filter(|_| self.nodes.is_empty())
    }

    /// The one octet of the only element, where it has this tag.
    pub fn only_octet(mut self, tag: u8) -> Option<u8> {
        self.take_octet(tag).filter(|_| self.nodes.is_empty())
    }
}
