//! A device of one's own, which loses the second addition, and the lines that find it.

fn my_device(turn: i32, mine: &mut [u8], request: &[u8]) -> Option<Vec<u8>> {
    let before = mine.to_vec();
    let completion = pciex::answer(mine, 0, 64, request).ok()?;
    if turn == 1 {
        mine.copy_from_slice(&before);
    }
    completion
}

fn main() -> Result<(), pciex::Error> {
    let mut mine = [0; 4096];
    let mut memory = [0; 4096];
    let request = pciex::encode("add 40 07000000 from 0100 tag 05")?;
    for turn in 0..3 {
        let got = my_device(turn, &mut mine, &request);
        println!("request {turn}");
        let expected = pciex::answer(&mut memory, 0, 64, &request)?;
        if let Some(field) = pciex::differ(&request, expected.as_deref(), got.as_deref()) {
            println!("wrong: {field}");
        }
    }
    Ok(())
}
