//! The calls over whole images: read, write, build and route, and the
//! acceptance of an image (refusals 1 to 8) that they share.

use crate::image::{bodies, lay_out, Allowed};
use crate::label::labels;
use crate::network::Network;
use crate::refusal::{refusal, Refusal};
use crate::rows::{follow, tables, Tables};

/// An accepted cabling with the labels and tables that the rules give.
#[derive(Clone, Debug, PartialEq, Eq)]
pub struct Fabric {
    pub network: Network,
    pub labels: Vec<usize>,
    pub tables: Tables,
}

/// What read answers.
#[derive(Clone, Copy, Debug, PartialEq, Eq)]
pub struct Read {
    pub nodes: usize,
    pub links: usize,
    pub full: bool,
}

impl Fabric {
    pub fn new(network: Network) -> Fabric {
        let labels = labels(&network);
        let tables = tables(&network, &labels);
        Fabric {
            network,
            labels,
            tables,
        }
    }

    /// The body of kind 2.
    pub fn label_bytes(&self) -> Vec<u8> {
        self.labels.iter().map(|&label| label as u8).collect()
    }

    pub fn full_image(&self) -> Vec<u8> {
        let links = self.network.links_body();
        let labels = self.label_bytes();
        lay_out(&[
            (1, &links),
            (2, &labels),
            (3, &self.tables.free),
            (4, &self.tables.falling),
        ])
    }

    fn agrees(&self, kept: [&[u8]; 3]) -> bool {
        let labels = self.label_bytes();
        kept == [
            labels.as_slice(),
            self.tables.free.as_slice(),
            self.tables.falling.as_slice(),
        ]
    }
}

/// Accepts either image and says whether it is a full one.
pub fn accept(image: &[u8]) -> Result<(Fabric, bool), Refusal> {
    let bodies = bodies(image, Allowed::Either)?;
    let fabric = Fabric::new(Network::from_links(bodies.links)?);
    match bodies.tables {
        Some(kept) if !fabric.agrees(kept) => Err(refusal(8, 0)),
        kept => Ok((fabric, kept.is_some())),
    }
}

/// Answers N, M and which image it was; writes the pairs.
pub fn read(image: &[u8], out: &mut [u8]) -> Result<Read, Refusal> {
    let (fabric, full) = accept(image)?;
    put(&fabric.network.pair_bytes(), out)?;
    Ok(Read {
        nodes: fabric.network.nodes(),
        links: fabric.network.links(),
        full,
    })
}

/// Writes the links image or the full image of a cabling; answers its length.
pub fn write(nodes: usize, pairs: &[u8], full: bool, out: &mut [u8]) -> Result<usize, Refusal> {
    let network = Network::from_pairs(nodes, pairs)?;
    if full {
        put(&Fabric::new(network).full_image(), out)
    } else {
        put(&lay_out(&[(1, &network.links_body())]), out)
    }
}

/// Writes the full image of a links image; answers its length.
pub fn build(image: &[u8], out: &mut [u8]) -> Result<usize, Refusal> {
    let bodies = bodies(image, Allowed::LinksOnly)?;
    let network = Network::from_links(bodies.links)?;
    put(&Fabric::new(network).full_image(), out)
}

/// Writes the nodes of a route, source first; answers hops + 1.
pub fn route(
    image: &[u8],
    source: usize,
    destination: usize,
    out: &mut [u8],
) -> Result<usize, Refusal> {
    let (fabric, _) = accept(image)?;
    let nodes = fabric.network.nodes();
    if source >= nodes || destination >= nodes {
        return Err(refusal(10, 0));
    }
    let route = follow(&fabric.tables, &fabric.labels, source, destination);
    let bytes: Vec<u8> = route.iter().map(|&node| node as u8).collect();
    put(&bytes, out)
}

/// Writes at the front of a lent buffer, or refuses and leaves it alone.
pub(crate) fn put(bytes: &[u8], out: &mut [u8]) -> Result<usize, Refusal> {
    let front = out.get_mut(..bytes.len()).ok_or(refusal(9, 0))?;
    front.copy_from_slice(bytes);
    Ok(bytes.len())
}
