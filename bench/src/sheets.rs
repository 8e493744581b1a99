//! Sheets of a fixed template on a fixed store: document 02 Twelve's, and one of every command.

use second::Value;
use station_tests::store::{cell, key, put, remove};
use std::fmt::Write;

/// Document 02 Eleven: the store after 3,000 edits from seed 0.
pub fn load() -> Vec<u8> {
    let mut seed = 0_u32;
    let mut draw = || {
        seed = seed.wrapping_mul(1_664_525).wrapping_add(1_013_904_223);
        (seed / 65_536) as u16
    };
    let mut buffer = vec![0; 65_536];
    let mut length = 0;
    let (mut put_in, mut taken_out, mut absent) = (0, 0, 0);
    for _ in 0..3_000 {
        let [first, datasource, parameter, record, value] = [(); 5].map(|()| draw());
        let place = [1 + datasource % 35, 1 + parameter % 500, record % 20, 0];
        let edited = match first % 2 {
            1 => remove(&mut buffer, length, &key(place)),
            _ => put(
                &mut buffer,
                length,
                &cell(place, &Value::Integer(value.into())),
            ),
        };
        match (first % 2, edited.number) {
            (0, 0) => put_in += 1,
            (1, 0) => taken_out += 1,
            (1, 17) => absent += 1,
            other => panic!("an edit ended with {other:?}"),
        }
        length = edited.length;
    }
    assert_eq!((put_in, taken_out, absent), (1_549, 2, 1_449));
    assert_eq!(length, 1_544 * 12);
    buffer.truncate(length);
    buffer
}

/// Document 02 Twelve: "a table of 20 passes prints `{Pn.LOOP,11}` for n from 1 to 100, a line each", in datasource 35.
pub fn twelve() -> Vec<u8> {
    let mut template = String::from("$SEC A\n$SETDS 35\n$BT 20\n");
    for n in 1..=100 {
        let _ = writeln!(template, "{{P{n}.LOOP,11}}");
    }
    (template + "$ET\n").into_bytes()
}

/// A table of 500 passes over every command, each test once met and once failed.
pub fn commands() -> Vec<u8> {
    let mut template = String::from("$SEC A\n$PH1 Nuclide {SV1,8}page {PAGENUM,3}\n$BT 500\n");
    template += "$REM every kind of variable\n$SETDS 2\n";
    template += "$SETE IV1 LOOP\n$SETA IV1 7\n$SETS IV1 P1\n$SETM IV1 -3\n$SETD IV1 2\n";
    template += "$SETE FV1 P2.1\n$SETA FV1 IV1\n$SETS FV1 0.25\n$SETM FV1 1.5\n$SETD FV1 FV1\n";
    template += "$SETE SV1 \"Cs-137\"\n$SETE SV2 P3.0.1|UPPER\n";
    for (met, failed) in [
        ("$IF 1.5", "$IF IV9"),
        ("$IFNOT 0", "$IFNOT 7"),
        ("$IFEQ IV9 0.0", "$IFEQ 1 FV9"),
        ("$IFNE IV1 0", "$IFNE FV1 1"),
        ("$IFLT -1 FV1", "$IFLT FV1 -1"),
        ("$IFLE IV9 0", "$IFLE 1 IV9"),
        ("$IFGT LOOP 0", "$IFGT 0 LOOP"),
        ("$IFGE LOOP 1", "$IFGE -1 FV9"),
        ("$IFEQSS SV1 \"Cs\"", "$IFEQSS SV1 SV2"),
        ("$IFEQSI SV2 \"cs-137\"", "$IFEQSI SV1 \"Co\""),
    ] {
        let _ = write!(template, "{met}\n$ELSE\nnever printed\n$ENDIF\n");
        let _ = write!(template, "{failed}\nnever printed\n$ELSE\n$ENDIF\n");
    }
    template += "$BT 3\n$SETA IV2 LOOP\n$ET\n$BT 5\n$ET 2\n$BT 0\n$ET\n";
    template += "$REC 1 P1 0 0 2\n$TBL 10 P3 0 0 2\n$BT 2\n$IF R1\n$SETE SV3 T10\n$ENDIF\n$ET\n";
    template += "$NOFF\n$NP 0\n$PH2 {LINENUM,2}\n$PH3 \n$PH3\n";
    template += "{IV1,6}{FV1,9.3} {SV3,8}{P1,5}{LOOP,4}\n$ET\n";
    template.into_bytes()
}

/// The cells that the table of commands asks for.
pub fn few_cells() -> Vec<u8> {
    let mut store = cell([2, 1, 0, 0], &Value::Integer(3));
    store.extend(cell([2, 1, 1, 0], &Value::Integer(5)));
    store.extend(cell([2, 2, 1, 0], &Value::Decimal(1_250_000)));
    store.extend(cell([2, 3, 0, 0], &Value::String(b"Co-60".to_vec())));
    store.extend(cell([2, 3, 0, 1], &Value::String(b"Cs-137".to_vec())));
    store
}
