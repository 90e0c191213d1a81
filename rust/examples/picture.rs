//! A block of residuals as a picture and back: writes a graymap of 4 by 4 into a buffer, says how it starts, and reads it again.

use hoengtila::{picture_read, picture_write};

fn main() {
    let residuals: Vec<i32> = (-8..8).map(|step| step * 4096).collect();
    let mut file = [0; 15 + 2 * 16];
    let written = picture_write(4, 4, &residuals, &mut file);
    assert_eq!(written.number, 0, "refused");
    let file = &file[..written.bytes as usize];
    println!(
        "{} bytes: {:?}",
        file.len(),
        String::from_utf8_lossy(&file[..13])
    );

    let mut again = [0; 16];
    let picture = picture_read(file, &mut again);
    println!(
        "number {}: {} by {}, {again:?}",
        picture.number, picture.width, picture.height
    );
    assert_eq!(again[..], residuals[..]);
}
