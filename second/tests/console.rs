//! The console page, to the byte: talks by hand.

use crate::common::talk::holds;

#[test]
fn a_session_by_hand() {
    holds(
        "lend 2 3 60 => lent 2 3 60
        start 0 1 => reply 0 answer 0 holder 0 sheet 0 turns 0
        open 1 => reply 0 answer 0 holder 0 sheet 0 turns 0
        ins 1 7 2 4 -1 5 => reply 0 answer 1 holder 0 sheet 0 turns -1
        mem 1 7 2 4 15 5 => reply 6 answer 0 holder 1 sheet 7 turns 0
        read 4 => sheeted 1 1 1 1073987589 7 next 16
        read 0 => open 1 next 4
        commit 1 => reply 0 answer 0 holder 0 sheet 0 turns 0
        read 16 => commit 1 next 20
        read 20 => end
        mem 1 7 2 4 0 0 => reply 3 answer 0 holder 0 sheet 0 turns 0
        open 2 => reply 0 answer 0 holder 0 sheet 0 turns 0
        mem 2 7 2 4 15 5 => reply 0 answer 1 holder 0 sheet 0 turns 0
        mem 2 7 2 4 0 0 => reply 0 answer 0 holder 0 sheet 0 turns 0
        abort 2 => reply 0 answer 0 holder 0 sheet 0 turns 0
        read 48 => abort 2 next 52
        read 52 => end
        address 2 4 -1 5 => reply 0 key 1073987589 turns -1
        address 2 3 0 0 => reply 5 key 0 turns 0",
    );
}

#[test]
fn nothing_is_lent_at_the_beginning() {
    holds(
        "start 0 1 => reply 1 answer 0 holder 0 sheet 0 turns 0
        start 0 2 => reply 1 answer 0 holder 0 sheet 0 turns 0
        open 0 => reply 1 answer 0 holder 0 sheet 0 turns 0
        ins 0 7 2 4 -1 5 => reply 1 answer 0 holder 0 sheet 0 turns 0
        delall 0 7 2 4 -1 5 0 0 => reply 1 holder 0 sheet 0 turns 0 0
        sum => sum 623557158
        read 0 => end
        replay 0 0 => reply 1 offset 0 undone 0 count 0
        replay 7 1 => ?
        tile 0 0 => ?
        byte 0 0 => ?
        mend 5 0 0 => reply 1 length 0 left 0 aborted 0 count 5 sum 0",
    );
}

#[test]
fn a_session_by_rule_2_by_hand() {
    holds(
        "lend 2 6 90 => lent 2 6 90
        start 0 2 => reply 0 answer 0 holder 0 sheet 0 turns 0
        read 0 => rule 2 next 4
        open 1 => reply 0 answer 0 holder 0 sheet 0 turns 0
        ins 1 7 2 4 -1 5 => reply 0 answer 1 holder 0 sheet 0 turns -1
        mem 1 7 2 4 15 5 => reply 0 answer 1 holder 0 sheet 0 turns 0
        del 1 7 2 4 15 5 => reply 0 answer 1 holder 0 sheet 0 turns 0
        mem 1 7 2 4 31 5 => reply 0 answer 0 holder 0 sheet 0 turns 1
        open 2 => reply 0 answer 0 holder 0 sheet 0 turns 0
        mem 2 7 2 4 31 5 => reply 6 answer 0 holder 1 sheet 7 turns 0
        read 4 => open 1 next 8
        read 56 => open 2 next 60
        rule 1 => ok
        open 3 => reply 1 answer 0 holder 0 sheet 0 turns 0
        rule 2 => ok
        abort 1 => reply 0 answer 0 holder 0 sheet 0 turns 0
        mem 2 7 2 4 15 5 => reply 0 answer 0 holder 0 sheet 0 turns 0",
    );
}

#[test]
fn rectangles_by_hand() {
    holds(
        "lend 4 6 90 => lent 4 6 90
        start 0 1 => reply 0 answer 0 holder 0 sheet 0 turns 0
        open 1 => reply 0 answer 0 holder 0 sheet 0 turns 0
        open 2 => reply 0 answer 0 holder 0 sheet 0 turns 0
        insall 1 7 2 4 -1 0 5 6 => reply 0 holder 0 sheet 0 turns -1 0
        read 8 => sheeted 1 1 1 1073987589 7 next 20
        read 44 => sheeted 1 1 1 1073741830 7 next 56
        delall 2 7 2 4 16 16 0 15 => reply 6 holder 1 sheet 7 turns 0 0
        delall 2 7 2 4 0 0 6 7 => reply 6 holder 1 sheet 7 turns 0 0
        insall 2 7 2 4 17 17 0 0 => reply 7 holder 0 sheet 0 turns 0 0
        delall 2 7 2 4 17 19 0 0 => reply 8 holder 0 sheet 0 turns 0 0
        delall 2 7 2 4 17 16 0 0 => reply 13 holder 0 sheet 0 turns 0 0
        insall 2 7 2 4 16 16 0 16 => reply 5 holder 0 sheet 0 turns 0 0
        insall 2 7 2 4 -2147483648 2147483647 0 0 => reply 13 holder 0 sheet 0 turns 0 0
        insall 64 7 2 4 16 16 0 0 => reply 2 holder 0 sheet 0 turns 0 0
        insall 3 7 2 4 16 16 0 0 => reply 3 holder 0 sheet 0 turns 0 0
        delall 2 7 2 4 17 18 0 0 => reply 0 holder 0 sheet 0 turns 1 1
        delall 2 7 2 4 1 1 0 0 => reply 8 holder 0 sheet 0 turns 0 0
        mark 5 1 => ok
        mark 6 1 => ok
        mark 7 1 => ok
        mark 8 1 => ok
        mark 9 1 => ok
        delall 2 7 2 4 17 17 0 0 => reply 1 holder 0 sheet 0 turns 0 0",
    );
}

#[test]
fn turns_by_hand() {
    holds(
        "address 2 4 -1 5 => reply 0 key 1073987589 turns -1
        address 2 4 15 5 => reply 0 key 1073987589 turns 0
        address 2 4 16 0 => reply 0 key 1073741824 turns 1
        address 2 4 70000 0 => reply 0 key 1073741824 turns 4375
        address 2 4 -2147483648 0 => reply 0 key 1073741824 turns -134217728
        address 2 4 2147483647 0 => reply 0 key 1073987584 turns 134217727
        address 2 14 -1 16383 => reply 0 key 4026531839 turns -1
        address 2 14 16383 16383 => reply 0 key 4026531839 turns 0
        address 2 14 -2147483648 0 => reply 0 key 3758096384 turns -131072
        address 2 14 2147483647 16383 => reply 0 key 4026531839 turns 131071
        address 2 4 70000 16 => reply 5 key 0 turns 0
        address 2 15 70000 0 => reply 5 key 0 turns 0
        lend 40 40 500 => lent 40 40 500
        start 0 1 => reply 0 answer 0 holder 0 sheet 0 turns 0
        open 1 => reply 0 answer 0 holder 0 sheet 0 turns 0
        ins 1 7 2 4 70000 0 => reply 0 answer 1 holder 0 sheet 0 turns 4375
        mem 1 7 2 4 -2147483648 1 => reply 0 answer 0 holder 0 sheet 0 turns -134217728
        del 1 7 2 14 2147483647 1 => reply 0 answer 1 holder 0 sheet 0 turns 131071
        mem 1 7 2 4 70000 -1 => reply 5 answer 0 holder 0 sheet 0 turns 0
        mem 1 7 2 4 70000 0 => reply 6 answer 0 holder 1 sheet 7 turns 0
        delall 1 7 2 4 69999 70000 2 2 => reply 0 holder 0 sheet 0 turns 4374 4375
        delall 1 7 2 4 -2147483647 -2147483632 3 3 => reply 0 holder 0 sheet 0 turns -134217728 -134217727
        delall 1 7 2 14 2147467263 2147467264 4 4 => reply 0 holder 0 sheet 0 turns 131070 131071",
    );
}

#[test]
fn editions_by_hand() {
    holds(
        "address 1 4 -1 10 => reply 0 key 1073987589 turns -1
        address 1 4 16 15 => reply 0 key 1073741824 turns 1
        address 1 14 -1 0 => reply 0 key 4026531839 turns -1
        address 1 4 0 -2147483648 => reply 5 key 0 turns 0
        address 1 4 0 16 => reply 5 key 0 turns 0
        address 0 4 0 0 => reply 14 key 0 turns 0
        address 3 4 0 16 => reply 14 key 0 turns 0
        address 255 3 70000 0 => reply 14 key 0 turns 0
        lend 9 9 200 => lent 9 9 200
        start 0 1 => reply 0 answer 0 holder 0 sheet 0 turns 0
        ins 1 7 3 4 0 16 => reply 3 answer 0 holder 0 sheet 0 turns 0
        open 1 => reply 0 answer 0 holder 0 sheet 0 turns 0
        open 2 => reply 0 answer 0 holder 0 sheet 0 turns 0
        ins 1 7 1 4 -1 10 => reply 0 answer 1 holder 0 sheet 0 turns -1
        read 8 => sheeted 1 1 1 1073987589 7 next 20
        mem 2 7 2 4 15 5 => reply 6 answer 0 holder 1 sheet 7 turns 0
        mem 2 7 1 4 15 5 => reply 0 answer 0 holder 0 sheet 0 turns 0
        mem 2 7 0 4 15 16 => reply 14 answer 0 holder 0 sheet 0 turns 0
        insall 2 7 1 4 0 0 1 0 => reply 0 holder 0 sheet 0 turns 0 0
        read 32 => sheeted 2 1 1 1073741838 7 next 44
        read 44 => sheeted 2 1 1 1073741839 7 next 56
        insall 2 7 1 4 0 0 0 1 => reply 13 holder 0 sheet 0 turns 0 0
        insall 2 7 2 4 0 0 15 14 => reply 13 holder 0 sheet 0 turns 0 0
        insall 2 7 1 4 0 0 16 15 => reply 5 holder 0 sheet 0 turns 0 0
        insall 2 7 1 4 0 0 0 -1 => reply 5 holder 0 sheet 0 turns 0 0
        insall 2 7 3 4 1 0 0 -1 => reply 14 holder 0 sheet 0 turns 0 0
        delall 1 7 2 4 0 0 14 15 => reply 6 holder 2 sheet 7 turns 0 0",
    );
}

#[test]
fn sheets_by_hand() {
    holds(
        "lend 9 9 200 => lent 9 9 200
        start 0 1 => reply 0 answer 0 holder 0 sheet 0 turns 0
        open 1 => reply 0 answer 0 holder 0 sheet 0 turns 0
        open 2 => reply 0 answer 0 holder 0 sheet 0 turns 0
        ins 1 65535 2 4 -1 5 => reply 0 answer 1 holder 0 sheet 0 turns -1
        ins 1 0 2 4 3 5 => reply 0 answer 1 holder 0 sheet 0 turns 0
        del 1 258 2 4 4 5 => reply 0 answer 1 holder 0 sheet 0 turns 0
        mem 2 9 2 4 15 5 => reply 6 answer 0 holder 1 sheet 65535 turns 0
        mem 2 65535 2 4 3 5 => reply 6 answer 0 holder 1 sheet 0 turns 0
        mem 1 8 2 4 15 5 => reply 6 answer 0 holder 1 sheet 65535 turns 0
        ins 2 513 2 4 4 5 => reply 0 answer 1 holder 0 sheet 0 turns 0
        delall 1 5 2 4 3 4 5 5 => reply 6 holder 1 sheet 0 turns 0 0
        delall 1 5 2 4 4 5 5 5 => reply 6 holder 2 sheet 513 turns 0 0
        delall 2 3 2 4 5 5 5 6 => reply 0 holder 0 sheet 0 turns 0 0
        read 8 => sheeted 1 1 1 1073987589 65535 next 20
        read 20 => sheeted 1 1 1 1073790981 0 next 32
        read 32 => sheeted 1 2 1 1073807365 258 next 44
        read 56 => sheeted 2 2 1 1073823749 3 next 68
        byte 20 2 => ok
        byte 22 7 => ok
        read 20 => operation 1 1 1 1073790981 next 30
        read 30 => reply 10 offset 30",
    );
}

#[test]
fn a_start_by_rule_2_needs_four_bytes() {
    holds(
        "lend 1 1 3 => lent 1 1 3
        rule 2 => ok
        start 0 2 => reply 9 answer 0 holder 0 sheet 0 turns 0
        sum => sum 747555506
        lend 1 1 4 => lent 1 1 4
        start 0 2 => reply 0 answer 0 holder 0 sheet 0 turns 0
        byte 3 1 => ok
        read 0 => reply 10 offset 0
        byte 3 2 => ok
        read 0 => rule 2 next 4
        journal 3 => ok
        read 0 => cut
        lend 1 1 3 => lent 1 1 3
        sum => sum 747555506",
    );
}

#[test]
fn replay_leaves_the_session_alone() {
    holds(
        "lend 2 3 60 => lent 2 3 60
        start 0 1 => reply 0 answer 0 holder 0 sheet 0 turns 0
        open 1 => reply 0 answer 0 holder 0 sheet 0 turns 0
        ins 1 7 2 4 -1 5 => reply 0 answer 1 holder 0 sheet 0 turns -1
        replay 0 16 => reply 1 offset 0 undone 0 count 0
        tile 0 0 => ok
        replay 0 16 => reply 0 offset 16 undone 1 count 0
        replay 0 61 => ?
        replay 9 16 => reply 1 offset 0 undone 0 count 9
        commit 1 => reply 1 answer 0 holder 0 sheet 0 turns 0",
    );
}

#[test]
fn reading_uses_all_lent_bytes_where_the_count_is_larger() {
    holds(
        "lend 1 1 4 => lent 1 1 4
        byte 0 1 => ok
        byte 2 1 => ok
        read 0 => end
        journal 3 => ok
        read 0 => cut
        journal 99 => ok
        read 0 => open 0 next 4
        byte 0 7 => ok
        read 0 => reply 10 offset 0
        read 4 => end",
    );
}

#[test]
fn counts_by_hand() {
    holds(
        "levels => levels 0 0 0 0 0 0 0 0 0 0 0 spoken 0
        lend 4 6 200 => lent 4 6 200
        tile 0 1073987589 => ok
        tile 1 4026531839 => ok
        start 2 2 => reply 0 answer 0 holder 0 sheet 0 turns 0
        levels => levels 1 0 0 0 0 0 0 0 0 0 1 spoken 0
        open 1 => reply 0 answer 0 holder 0 sheet 0 turns 0
        del 1 7 2 14 -1 16383 => reply 0 answer 1 holder 0 sheet 0 turns -1
        levels => levels 1 0 0 0 0 0 0 0 0 0 0 spoken 1
        insall 1 7 2 5 -1 0 3 3 => reply 0 holder 0 sheet 0 turns -1 0
        levels => levels 1 2 0 0 0 0 0 0 0 0 0 spoken 1
        ins 1 7 2 9 0 0 => reply 7 answer 0 holder 0 sheet 0 turns 0
        ins 1 7 2 14 -1 16383 => reply 0 answer 1 holder 0 sheet 0 turns -1
        levels => levels 1 2 0 0 0 0 0 0 0 0 1 spoken 0
        level 5 1 => ok
        open 2 => reply 1 answer 0 holder 0 sheet 0 turns 0
        delall 1 7 2 5 -1 0 3 3 => reply 1 holder 0 sheet 0 turns 0 0
        levels => levels 1 1 0 0 0 0 0 0 0 0 1 spoken 0
        level 5 2 => ok
        spoken 1 => ok
        abort 1 => reply 1 answer 0 holder 0 sheet 0 turns 0
        spoken 0 => ok
        level 15 0 => ?
        level 3 0 => ?
        abort 1 => reply 0 answer 0 holder 0 sheet 0 turns 0
        levels => levels 1 0 0 0 0 0 0 0 0 0 1 spoken 0
        start 1 1 => reply 1 answer 0 holder 0 sheet 0 turns 0
        levels => levels 0 0 0 0 0 0 0 0 0 0 0 spoken 0
        tiles 2 => ok
        open 1 => reply 1 answer 0 holder 0 sheet 0 turns 0
        level 4 1 => ok
        level 14 1 => ok
        open 1 => reply 0 answer 0 holder 0 sheet 0 turns 0",
    );
}
