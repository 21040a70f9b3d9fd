#!/bin/sh
# Prints the function with which the measuring programs read their file. scratch.sh runs it.
cat <<'END'
/// The bytes of a file up to 400 MB, none where there is none.
fn whole_file(alloc: Global, shelf: &mut RealShelf, name: &str) -> Result<Vec<u8>, Memory> {
    let mut piece = [0u8; 4096];
    let mut bytes = Vec::new(alloc);
    for _ in 0..100000 {
        match shelf.read(name, bytes.len() as u64, &mut piece) {
            Ok(0) => break,
            Ok(n) => bytes.extend_from_slice(&piece[..n])?,
            Err(_) => break,
        }
    }
    Ok(bytes)
}
END
