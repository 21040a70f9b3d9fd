#!/bin/sh
# Prints the part with which the programs of sweep.sh and verify.sh make a drawing of straights: its
# window, how a number is read, and the function that adds a straight. Those two scripts run it.
# Each argument is a line of the contract of that function; without arguments it has none.
cat <<'END'
const LEAST: i64 = -2_147_483_648;
const GREATEST: i64 = 2_147_483_647;
const WINDOW: Window2 = Window2 {
    low: Point { x: LEAST, y: LEAST },
    high: Point { x: GREATEST, y: GREATEST },
};

/// The number that four bytes spell, the lowest first.
fn number(bytes: Option<&[u8]>) -> i64 {
    match bytes {
        Some([a, b, c, d]) => i32::from_le_bytes([*a, *b, *c, *d]) as i64,
        _ => 0,
    }
}

fn is_inside(window: &Window2, p: Point) -> bool
    ensures { IsTrue result → IsInside window.now.low window.now.high p }
{
    if window.low.x <= p.x
        && p.x <= window.high.x
        && window.low.y <= p.y
        && p.y <= window.high.y
    {
        return true;
    }
    false
}

END
printf 'fn add_straight(drawing: &mut Drawing, from: Point, to: Point)'
if [ $# -gt 0 ]; then
    printf '\n'
    printf '    %s\n' "$@"
    printf '{\n'
else
    printf ' {\n'
fi
cat <<'END'
    if from != to
        && drawing.curves.len() < 1_000_000
        && is_inside(&drawing.window, from)
        && is_inside(&drawing.window, to)
    {
        let _ = drawing.add_straight(from, to, 0);
    }
}

END
