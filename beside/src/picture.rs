//! The picture of docs/COMPARISON.md, which is drawn by the comparison and by the benchmark.

/// Its colours, row by row from the top.
pub fn colours(w: usize, h: usize) -> Vec<u8> {
    let colour = |x: usize, y: usize| (x / 60 + y / 45 + (x * x + y * y) / 4096) % 8;
    let places = (0..h).flat_map(|y| (0..w).map(move |x| (x, y)));
    places.map(|(x, y)| colour(x, y) as u8).collect()
}

#[cfg(test)]
mod tests {
    use super::*;

    #[test]
    fn the_picture_by_hand() {
        let colours = colours(480, 360);
        assert_eq!(colours.len(), 172_800);
        assert_eq!((colours[0], colours[60]), (0, 1));
        // 7 columns of 60, no rows of 45, 229441 / 4096 = 56: 63.
        assert_eq!(colours[479], 7);
        // Row 359: 7 rows of 45, 128881 / 4096 = 31: 38.
        assert_eq!(colours[359 * 480], 6);
    }
}
