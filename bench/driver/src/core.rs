//! The loops over the core: `loops.txt`, compiled by `build`. A slice goes as its address and its length.

macro_rules! loops {
    ($($name:ident = $symbol:ident(
        $($lent:ident: &[$item:ty]),*; $($out:ident: &mut [$byte:ty])?; $($number:ident: $int:ty)?
    );)*) => {
        unsafe extern "C" {
            $(fn $symbol($(_: *const $item, _: usize,)* $(_: *mut $byte, _: usize,)? $(_: $int,)?) -> u64;)*
        }
        $(pub fn $name($($lent: &[$item],)* $($out: &mut [$byte],)? $($number: $int,)?) -> u64 {
            unsafe {
                $symbol($($lent.as_ptr(), $lent.len(),)* $($out.as_mut_ptr(), $out.len(),)? $($number,)?)
            }
        })*
    };
}

loops! {
    perft = core_perft(positions: &[u64]; ; depth: u32);
    legal_moves = core_legal_moves(positions: &[u64]; ;);
    after = core_after(positions: &[u64], moves: &[u64]; ;);
    has_captures = core_has_captures(positions: &[u64]; ;);
    sound = core_sound(positions: &[u64]; ;);
    evaluate = core_evaluate(positions: &[u64]; ;);
    from_fen = core_from_fen(text: &[u8], ends: &[u64]; ;);
    from_hub = core_from_hub(text: &[u8], ends: &[u64]; ;);
    fen = core_fen(positions: &[u64]; out: &mut [u8];);
    hub = core_hub(positions: &[u64]; out: &mut [u8];);
    to_hub = core_to_hub(moves: &[u64]; out: &mut [u8];);
    parse_move = core_parse_move(positions: &[u64], text: &[u8], ends: &[u64]; ;);
    play = core_play(start: &[u64], moves: &[u64]; ;);
    play_str = core_play_str(start: &[u64], text: &[u8], ends: &[u64]; ;);
    outcome = core_outcome(start: &[u64], moves: &[u64]; ; times: u64);
}
