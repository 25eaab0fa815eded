//! Distances in a view ('Network and views').

/// Marks an unreachable bridge and an absent limit; compares above every distance.
pub const NONE: u32 = 4_294_967_295;

/// The sum of a cost and a distance; NONE if the distance is NONE.
///
/// The greatest cost plus the greatest distance is far below NONE, so the sum cannot reach it.
pub fn plus(cost: u32, distance: u32) -> u32 {
    if distance == NONE {
        NONE
    } else {
        cost.saturating_add(distance)
    }
}

/// The distance of every bridge to the destination: the least sum of costs of any path to it.
///
/// A shortest path crosses at most `bridges - 1` links, so that many passes over the links are enough.
pub fn distances_to(destination: usize, bridges: usize, links: &[[usize; 2]], costs: &[u32]) -> Vec<u32> {
    let mut distances = vec![NONE; bridges];
    distances[destination] = 0;
    for _ in 1..bridges {
        for (&[a, b], &cost) in links.iter().zip(costs) {
            if cost != 0 {
                distances[a] = distances[a].min(plus(cost, distances[b]));
                distances[b] = distances[b].min(plus(cost, distances[a]));
            }
        }
    }
    distances
}

#[cfg(test)]
mod tests {
    use super::*;

    const TRIANGLE: [[usize; 2]; 3] = [[0, 1], [1, 2], [0, 2]];

    #[test]
    fn e1_distances_of_the_triangle() {
        assert_eq!(distances_to(0, 3, &TRIANGLE, &[1, 1, 3]), [0, 1, 2]);
        assert_eq!(distances_to(0, 3, &TRIANGLE, &[0, 1, 3]), [0, 4, 3]);
    }

    #[test]
    fn unreachable_is_none() {
        assert_eq!(distances_to(2, 3, &TRIANGLE, &[1, 0, 0]), [NONE, NONE, 0]);
        assert_eq!(distances_to(0, 2, &[], &[]), [0, NONE]);
    }

    #[test]
    fn parallel_links_take_the_cheaper() {
        assert_eq!(distances_to(0, 2, &[[0, 1], [1, 0], [0, 1]], &[7, 4, 0]), [0, 4]);
    }

    #[test]
    fn greatest_distance() {
        let links: Vec<[usize; 2]> = (0..15).map(|i| [15 - i, 14 - i]).collect();
        let costs = vec![16_777_215; 15];
        assert_eq!(distances_to(0, 16, &links, &costs)[15], 251_658_225);
        assert_eq!(distances_to(15, 16, &links, &costs)[0], 251_658_225);
    }
}
