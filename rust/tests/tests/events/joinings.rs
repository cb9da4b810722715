//! Joinings in lists of events: "A list of events may hold such a joining of two
//! of its kiosks, as they then stand, into one of them; the other stays as it is,
//! and the stores together still hold exactly the keys entered" (document 02,
//! slip 9). The kiosks' images are written and read by `drill` and joined by the
//! archive; the second program joins the nodes.

use super::*;
use crate::archive::{Asked, written_by};
use tests::joining;

/// Fills the buffer that is lent.
const NOISE: u64 = 0x4B5A_6978_8796_A5B4;

/// The image of a kiosk, as the drill writes it.
fn image_of_node(drill: &mut Drill, node: &RawNode) -> Vec<u8> {
    let case = write_image_case(node, IMAGE_MOST, &mut || 0);
    let reply = ask(drill, &case);
    assert_eq!(reply.number(), 0, "a node in order has an image");
    reply.bytes[..reply.count()].to_vec()
}

/// The kiosk of an image, as the drill reads it.
fn node_of_image(drill: &mut Drill, image: &[u8]) -> RawNode {
    let case = read_image_case(image.to_vec(), image.len(), &mut || 0);
    let reply = ask(drill, &case);
    assert_eq!(reply.number(), 0, "an image that a call wrote is read");
    reply.node()
}

impl World {
    /// A joining of any two kiosks, seldom with a byte too few for the image.
    pub fn join(&mut self, rng: &mut Rng, drill: &mut Drill, told: &mut Told) {
        let (into, from) = self.two(rng);
        let lent = IMAGE_MOST - usize::from(rng.one_in(8));
        self.join_into(into, from, lent, drill, told);
    }

    /// One kiosk is joined into another; the number.
    fn join_into(
        &mut self,
        into: usize,
        from: usize,
        lent: usize,
        drill: &mut Drill,
        told: &mut Told,
    ) -> u8 {
        let [first, second] = [into, from].map(|at| image_of_node(drill, &self.kiosks[at]));
        let wanted = join_nodes(self.kiosks[into].clone(), &self.kiosks[from], lent);
        let mut after = self.kiosks.clone();
        let asked = Asked::Join(first.clone(), second.clone(), lent);
        let number = match written_by(&asked, NOISE) {
            Ok(image) => {
                after[into] = node_of_image(drill, &image);
                told.all_ways("join", joining::ways(&first, &second));
                0
            }
            Err(number) => number,
        };
        assert_eq!(number, wanted.number, "the numbers differ");
        assert!(after[into] == wanted.node, "the nodes differ");
        self.kiosks = after;
        assert!(
            number != 8 || self.entered.len() > LIMIT,
            "8 with space to spare"
        );
        assert_eq!(number == 15, number != 8 && lent < IMAGE_MOST);
        told.event("join", number);
        number
    }
}

/// "When a branch closes, its kiosk's image goes to another kiosk": one kiosk
/// after the other is joined into one that stays, and is there no more. What was
/// entered is held still, in the end by the last of them alone.
#[test]
fn branches_close() {
    let mut drill = Drill::start();
    let mut told = Told::default();
    for_seeds(50, |_, rng| {
        let mut world = World::new(rng);
        // So many that the tables of both have more than 64 claims together.
        let events = rng.pick(&[20, 160]);
        while world.kiosks.len() > 1 {
            for _ in 0..events {
                world.enter(rng, &mut drill, &mut told);
                world.make(rng, &mut drill, &mut told);
                world.deliver(rng, &mut drill, &mut told);
            }
            world.beat(rng, &mut drill, &mut told);
            let (into, from) = world.two(rng);
            let number = world.join_into(into, from, IMAGE_MOST, &mut drill, &mut told);
            assert_eq!(number, 0, "few keys are entered");
            world.kiosks.remove(from);
            world.check();
        }
        let last = &world.kiosks[0].store;
        assert!(last.held().iter().eq(&world.entered), "all keys entered");
    });
    told.print("branches that close");
    if !one_seed() {
        let ([.., some], [.., more]) = (KEYS, KEPT);
        told.expect(&[("join", 0)], 100);
        told.expect_ways(&["join"], &[some], 40);
        told.expect_ways(&["join"], &[more], 20);
    }
}
