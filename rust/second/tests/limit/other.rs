//! What else goes by the limit: what a new kiosk costs and the wall sheet.

use super::common::*;
use super::{OLD_LIMIT, drawn, tens};
use second::*;

/// "for each n from 0 to the store limit" and "17, for n above the limit"
/// (document 02, slip 5).
#[test]
fn opening_costs_up_to_the_limit() {
    for_seeds(1, |rng| {
        for n in [OLD_LIMIT, OLD_LIMIT + 1, LIMIT - 1, LIMIT] {
            let right = RawStore::of(&drawn(rng, n));
            let mut records = vec![Delivery::default(); 2 * n];
            let rounded = round(RawStore::empty(), right, &mut records);
            let cost = opening_cost(n);
            assert_eq!((cost.number, cost.deliveries), (0, rounded.deliveries));
            assert_eq!(host::opening_cost(n), cost.deliveries as i64);
            assert_eq!(rounded.left, rounded.right);
        }
    });
    for n in [LIMIT + 1, LIMIT + 2, 2 * LIMIT, usize::MAX] {
        let cost = opening_cost(n);
        assert_eq!((cost.number, cost.deliveries), (17, 0));
        assert_eq!(host::opening_cost(n), -17);
    }
}

/// Sheets of more keys than before (document 02, slip 4), the longest among
/// them: all keys in their order, on as many pages as they take up.
#[test]
fn sheets_up_to_the_limit() {
    for count in [OLD_LIMIT, OLD_LIMIT + 1, LIMIT - 1, LIMIT] {
        let keys = tens(count);
        let length = 63 * (count.div_ceil(120) + count.div_ceil(3));
        let mut out = vec![0x55; SHEET_MOST];
        let image = image_of_keys(&keys);
        assert_eq!(host::sheet(&image, &mut out), length as i64);
        assert!(out[length..].iter().all(|&byte| byte == 0x55));
        assert_eq!(wallsheet(&image), out[..length]);
        let sheet = std::str::from_utf8(&out[..length]).unwrap();
        let lines = sheet.lines().filter(|line| !line.starts_with("page "));
        let told: Vec<u64> = lines
            .flat_map(|line| line.split_whitespace())
            .map(|field| field.parse().unwrap())
            .collect();
        assert_eq!(told, keys);
        assert!(length <= SHEET_MOST && (count < LIMIT || length == SHEET_MOST));
        // 15, of a byte less.
        assert_eq!(host::sheet(&image, &mut out[..length - 1]), -15);
    }
}
