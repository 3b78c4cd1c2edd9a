//! The faults that document 01 names, as scripts.

use super::agree_on;

/// Version 2, of pages 1 and 2, is still in work when version 3 is woven; 1 is published.
#[test]
fn fault_a_lower_version_still_in_work() {
    agree_on(
        "
        FORMAT,16,8,16,4 > ok
        BEGIN,4 > ticket,1
        PUT,1,0,<10> > put
        PUT,1,1,<11> > put
        PUT,1,2,<12> > put
        PUT,1,3,<13> > put
        APPEND,0,1 > version,1,7
        WEAVE,1 > node,1,0,4,1,1,6
        WEAVE,1 > node,1,0,2,1,1,5
        WEAVE,1 > node,1,0,1,0,0,4
        WEAVE,1 > node,1,1,1,1,0,3
        WEAVE,1 > node,1,2,2,1,1,2
        WEAVE,1 > node,1,2,1,2,0,1
        WEAVE,1 > node,1,3,1,3,0,0
        PUBLISH,0,0 > published,1
        BEGIN,1 > ticket,2
        BEGIN,2 > ticket,3
        PUT,2,0,<20> > put
        PUT,3,1,<32> > put
        PUT,3,0,<31> > put
        WRITE,0,3,1 > version,2,5
        APPEND,0,2 > version,3,4
        WEAVE,2 > node,3,0,8,2,3,3
        WEAVE,2 > node,3,4,4,3,0,2
        WEAVE,2 > node,3,4,2,3,0,1
        WEAVE,2 > node,3,4,1,4,0,0
        PUBLISH,0,0 > waiting
        WEAVE,3 > node,2,0,4,2,2,4
        WEAVE,3 > node,2,0,2,1,2,3
        WEAVE,3 > node,2,1,1,5,0,2
        WEAVE,3 > node,2,2,2,2,1,1
        PUBLISH,0,0 > waiting
        WEAVE,3 > node,2,2,1,6,0,0
        PUBLISH,0,0 > published,2
        PUBLISH,0,0 > published,3
        STAMP,0,3,0 > stamp,1
        STAMP,0,3,1 > stamp,2
        STAMP,0,3,2 > stamp,2
        STAMP,0,3,3 > stamp,1
        STAMP,0,3,4 > stamp,3
        STAMP,0,1,1 > stamp,1
        READ,0,3,15,2 > bytes,1031
        READ,0,3,31,2 > bytes,3132
        READ,0,3,47,2 > bytes,3213
        READ,0,3,63,2 > bytes,1320
        READ,0,2,31,2 > bytes,3132
        READ,0,1,31,2 > bytes,1112
        SIZE,0,1 > size,64
        SIZE,0,2 > size,64
        SIZE,0,3 > size,80",
    );
}

/// Version 1 has a node too few woven, or none at all, when version 2 weaves over it.
#[test]
fn fault_children_not_stored_yet() {
    agree_on(
        "
        FORMAT,16,8,16,4 > ok
        BEGIN,2 > ticket,1
        BEGIN,1 > ticket,2
        BEGIN,1 > ticket,3
        PUT,1,0,<11> > put
        PUT,1,1,<12> > put
        PUT,2,0,<21> > put
        PUT,3,0,<31> > put
        APPEND,0,1 > version,1,3
        WRITE,0,2,1 > version,2,2
        WRITE,0,3,0 > version,3,2
        WEAVE,3 > node,3,0,2,3,2,1
        WEAVE,2 > node,2,0,2,1,2,1
        WEAVE,3 > node,3,0,1,3,0,0
        WEAVE,2 > node,2,1,1,2,0,0
        PUBLISH,0,0 > waiting
        WEAVE,1 > node,1,0,2,1,1,2
        WEAVE,1 > node,1,0,1,0,0,1
        WEAVE,1 > node,1,1,1,1,0,0
        PUBLISH,0,0 > published,1
        PUBLISH,0,0 > published,2
        PUBLISH,0,0 > published,3
        PUBLISH,0,0 > waiting
        READ,0,1,15,2 > bytes,1112
        READ,0,2,15,2 > bytes,1121
        READ,0,3,15,2 > bytes,3121
        STAMP,0,3,0 > stamp,3
        STAMP,0,3,1 > stamp,2",
    );
}

#[test]
fn fault_f_against_the_published_size() {
    agree_on(
        "
        FORMAT,16,8,32,4 > ok
        BEGIN,2 > ticket,1
        BEGIN,1 > ticket,2
        BEGIN,1 > ticket,3
        PUT,1,0,<11> > put
        PUT,1,1,<12> > put
        PUT,2,0,<21> > put
        PUT,3,0,<31> > put
        APPEND,0,1 > version,1,3
        RECENT,0 > recent,0
        WRITE,0,2,3 > refused,13
        WRITE,0,2,2 > version,2,3
        WRITE,0,3,4 > refused,13
        APPEND,0,3 > version,3,3
        WEAVE,3 > node,3,0,4,1,3,2
        WEAVE,3 > node,3,2,2,2,3,1
        WEAVE,3 > node,3,3,1,3,0,0
        SIZE,0,1 > refused,16",
    );
}

#[test]
fn fault_publishing_out_of_order() {
    agree_on(
        "
        FORMAT,16,8,32,4 > ok
        PUBLISH,0,0 > waiting
        BEGIN,1 > ticket,1
        BEGIN,1 > ticket,2
        PUBLISH,0,0 > waiting
        PUT,1,0,<11> > put
        PUT,2,0,<21> > put
        APPEND,0,1 > version,1,1
        PUBLISH,0,0 > waiting
        WRITE,0,2,0 > version,2,1
        WEAVE,2 > node,2,0,1,1,0,0
        PUBLISH,0,0 > waiting
        RECENT,0 > recent,0
        READ,0,2,0,1 > refused,16
        WEAVE,1 > node,1,0,1,0,0,0
        PUBLISH,0,0 > published,1
        RECENT,0 > recent,1
        READ,0,2,0,1 > refused,16
        READ,0,1,0,1 > bytes,11
        PUBLISH,0,0 > published,2
        PUBLISH,0,0 > waiting
        RECENT,0 > recent,2
        READ,0,1,0,1 > bytes,11
        READ,0,2,0,1 > bytes,21",
    );
}

/// Offset plus length, f plus n, and S times a page, each wrapping to a small number.
#[test]
fn fault_sums_that_wrap() {
    agree_on(
        "
        FORMAT,16,8,32,4 > ok
        BEGIN,2 > ticket,1
        PUT,1,0,<11> > put
        PUT,1,1,<12> > put
        WRITE,0,1,18446744073709551615 > refused,13
        WRITE,0,1,18446744073709551614 > refused,13
        WRITE,0,1,0 > version,1,3
        WEAVE,1 > node,1,0,2,1,1,2
        WEAVE,1 > node,1,0,1,0,0,1
        WEAVE,1 > node,1,1,1,1,0,0
        PUBLISH,0,0 > published,1
        READ,0,1,18446744073709551615,1 > refused,17
        READ,0,1,18446744073709551615,2 > refused,17
        READ,0,1,18446744073709551600,16 > refused,17
        READ,0,1,18446744073709551600,32 > refused,17
        READ,0,1,18446744073709551360,256 > refused,17
        READ,0,1,18446744073709551361,256 > refused,17
        READ,0,1,9223372036854775808,0 > refused,17
        READ,0,0,18446744073709551615,1 > refused,17
        STAMP,0,1,1152921504606846976 > refused,17
        STAMP,0,1,1152921504606846977 > refused,17
        STAMP,0,1,18446744073709551615 > refused,17
        BEGIN,18446744073709551615 > refused,4
        BEGIN,1 > ticket,2
        PUT,2,0,<21> > put
        WRITE,0,2,18446744073709551615 > refused,13
        WRITE,0,2,18446744073709551614 > refused,13",
    );
}
