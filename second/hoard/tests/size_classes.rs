//! Block sizes, block counts and the class of each size.

use hoard::{class_of_size, SIZE_CLASSES};

/// Block size and blocks in a superblock, as printed in the scope.
const PRINTED: &str = "16/256, 24/170, 32/128, 40/102, 48/85, 56/73, 64/64, 80/51, 96/42, \
    112/36, 128/32, 160/25, 192/21, 224/18, 256/16, 320/12, 384/10, 448/9, 512/8, 640/6, 768/5, \
    896/4, 1024/4, 1280/3, 1536/2, 1792/2, 2048/2";

#[test]
fn classes_are_the_printed_ones() {
    let classes: Vec<String> = SIZE_CLASSES
        .iter()
        .map(|class| format!("{}/{}", class.block_size, class.blocks))
        .collect();
    assert_eq!(classes.join(", "), PRINTED);
}

#[test]
fn edge_sizes() {
    let edges = [
        (0, 0),
        (1, 0),
        (16, 0),
        (17, 1),
        (64, 6),
        (65, 7),
        (80, 7),
        (81, 8),
        (2048, 26),
    ];
    for (size, class) in edges {
        assert_eq!(class_of_size(size), Some(class), "size {size}");
    }
    for size in 2049..=65535 {
        assert_eq!(class_of_size(size), None, "size {size}");
    }
}

#[test]
fn each_size_takes_the_smallest_class_that_holds_it() {
    for size in 0..=2048u16 {
        let class = usize::from(class_of_size(size).unwrap());
        assert!(SIZE_CLASSES[class].block_size >= u32::from(size));
        assert!(class == 0 || SIZE_CLASSES[class - 1].block_size < u32::from(size));
    }
}
