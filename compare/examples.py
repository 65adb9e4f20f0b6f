"""The examples of the originals' documentation and of this repository's, as calls, and a run of
which every drop is told."""

# New maps, caches of two pairs and sets, for an example.
FIRST = {
    "map": ["with_hasher a spread", "with_hasher b spread"],
    "cache": ["cache_with_hasher a spread 2", "cache_with_hasher b spread 2"],
    "set": ["set_with_hasher a spread", "set_with_hasher b spread"],
}

EXAMPLES = {}

EXAMPLES["map"] = {
    "the crate": [
        "insert a 2 20", "insert a 1 10", "insert a 3 30",
        "index a 1", "index a 2", "index a 3", "iter a ffff f",
    ],
    "entry": [
        "or_insert a s 0", "or_insert a h 0", "or_insert a o 0", "or_insert a r 0",
        "or_insert a t 0", "or_insert a t 0", "or_insert a r 0", "or_insert a s 0",
        "index a s", "index a t", "get a y",
    ],
    "entries": ["insert a a 10", "insert a c 30", "insert a b 20", "entries a w 17", "get a a"],
    "insert": ["insert a 1 11", "insert a 2 12", "index a 1", "index a 2"],
    "get": [
        "insert a 1 11", "insert a 2 12", "insert a 2 13", "insert a 3 14", "get a 1", "get a 2",
    ],
    "get_mut": ["insert a 1 11", "insert a 2 12", "get_mut a 1 13", "get a 1"],
    "get_refresh": [
        "insert a 1 11", "insert a 2 12", "insert a 3 14", "get_refresh a 2 12", "iter a b f",
    ],
    "remove": ["insert a 2 11", "remove a 1", "remove a 2", "remove a 2", "len a"],
    "pop_front": ["insert a 1 10", "insert a 2 20", "pop_front a", "get a 1", "get a 2"],
    "front": ["insert a 1 10", "insert a 2 20", "front a"],
    "pop_back": ["insert a 1 10", "insert a 2 20", "pop_back a", "get a 1", "get a 2"],
    "back": ["insert a 1 10", "insert a 2 20", "back a"],
    "iter": ["insert a a 10", "insert a c 30", "insert a b 20", "iter a ffff f"],
    "iter_mut": ["insert a a 10", "insert a c 30", "insert a b 20", "iter_mut a f 17", "get a a"],
    "keys": ["insert a a 10", "insert a c 30", "insert a b 20", "keys a ffff f"],
    "values": ["insert a a 10", "insert a c 30", "insert a b 20", "values a ffff f"],
    "key of an entry": ["entry_key a hello", "insert a foo 1", "entry_key a foo"],
    "docs/PROVING.md": ["insert a 2 20", "insert a 1 10", "insert a 2 21", "iter a fff f"],
    "the library": [
        "insert a 7 1", "insert a 5 2", "insert a 7 3", "front a", "get a 5", "back a",
        "get_refresh a 5 2", "back a",
    ],
    "an entry of either kind": [
        "insert a x 1", "entry a x i 2", "entry a y m 3", "entry a x r 0", "len a",
    ],
    "comparison": [
        "insert a x 1", "insert a y 2", "insert b y 2", "insert b x 1", "eq a", "cmp a",
        "insert b y 2", "eq a", "cmp a", "hash a", "hash b", "partial_cmp a", "insert b y 3",
        "partial_cmp a", "insert b x 4", "partial_cmp a",
    ],
    "extension and collection": [
        "extend a x 1 y 2 x 3", "front a", "back a", "from_iter b x 1 y 2", "extend_refs b",
    ],
    "hashes of 64 bits": [
        "from_iter a a 1 b 2 c 3 d 4 e 5 f 6 g 7 h 8 i 9", "with_hasher a wide",
        "extend a a 1 b 2 c 3 d 4 e 5 f 6 g 7 h 8 i 9", "get a a", "get a e", "get a i", "get a j",
        "remove a e", "get a e", "get_refresh a a 1", "shrink_to_fit a", "get a i", "iter a bf f",
    ],
    "draining": ["insert a x 1", "insert a y 2", "drain a f", "len a"],
    "debug text": ["insert a x 1", "debug a", "debug_pretty a", "clone b", "debug b"],
    "the end of a map": ["insert a x 1", "insert a y 2", "clone b", "drop a", "drop b", "drop b"],
    "the traits of collections": [
        "collect a x 1 y 2 X 3", "extend_trait a y 4 z 5", "iter a fff f",
    ],
    "entries that are forgotten": [
        "insert a x 1", "entry a X o 2", "entry a y o 3", "entries a ow 4 forget", "clear a",
    ],
}

EXAMPLES["cache"] = {
    "the crate": [
        "cache_insert a 1 10", "cache_insert a 2 20", "cache_insert a 3 30",
        "cache_get_mut a 1 10", "cache_get_mut a 2 20", "cache_get_mut a 3 30",
        "cache_insert a 2 22", "cache_get_mut a 2 22", "cache_insert a 6 60",
        "cache_get_mut a 3 30", "cache_set_capacity a 1", "cache_get_mut a 2 22",
    ],
    "insert": [
        "cache_insert a x 1", "cache_insert a X 2", "cache_insert a y 3", "cache_insert a z 4",
        "cache_contains_key a x", "cache_contains_key a y", "cache_debug a",
    ],
    "a limit of 0": ["cache_set_capacity a 0", "cache_insert a x 1", "cache_len a"],
    "lookups that use no pair": [
        "cache_insert a x 1", "cache_insert a y 2", "cache_peek a x", "cache_peek_mut a x 3",
        "cache_insert a z 4", "cache_peek a x", "cache_get a y", "cache_insert a x 5",
        "cache_peek a z",
    ],
    "remove": [
        "cache_insert a 2 1", "cache_remove a 1", "cache_remove a 2", "cache_remove a 2",
        "cache_len a",
    ],
    "set_capacity": [
        "cache_extend a 1 1 2 2 3 3", "cache_set_capacity a 3", "cache_extend a 1 1 2 2",
        "cache_get a 1", "cache_get a 2", "cache_get a 3", "cache_set_capacity a 1",
        "cache_get a 1", "cache_get a 2", "cache_get a 3",
    ],
    "remove_lru": ["cache_extend a 1 1 2 2", "cache_remove_lru a", "cache_len a"],
    "iter": ["cache_extend a 1 10 2 20 3 30", "cache_iter a fff b", "cache_loop a"],
    "iter_mut": [
        "cache_extend a 1 10 2 20 3 30", "cache_iter_mut a ff 200", "cache_get_mut a 2 200",
        "cache_get_mut a 3 300",
    ],
    "the end of a cache": ["cache_extend a x 1 X 2 y 3", "cache_drop a", "cache_insert a x 4"],
}

EXAMPLES["set"] = {
    "insert": [
        "set_insert a x", "set_insert a y", "set_insert a X", "set_front a", "set_back a",
        "set_get a X", "set_debug a",
    ],
    "replace": ["set_extend a x y", "set_replace a X", "set_replace a z", "set_take a x"],
    "get_or_insert": [
        "set_get_or_insert a x", "set_get_or_insert a X", "set_get_or_insert_with a y",
        "set_get_or_insert_with a Y",
    ],
    "two sets": [
        "set_from_iter a x y z", "set_from_iter b z w y", "set_union a", "set_intersection a",
        "set_difference a", "set_symmetric_difference a", "set_is_disjoint a", "set_is_subset a",
        "set_take a x", "set_pop_front b", "set_is_superset b", "set_eq a",
    ],
    "equal sets": [
        "set_extend a x y", "set_extend b y x", "set_eq a", "set_to_back b y", "set_eq b",
    ],
    "order": [
        "set_extend a x y z", "set_to_front a y", "set_to_back a X", "set_to_front a w",
        "set_pop_back a", "set_pop_front a",
    ],
    "the end of a set": ["set_collect a x y X", "set_drop a", "set_insert a x"],
}

# Lines with what each drops. The serial numbers of what its words make are told beside it.
DROPS = (
    ("with_hasher a spread", ""),                                   # 1
    ("insert a x 1", ""),                                           # 2, 3
    ("insert a X 2", "drop-keys 1:4"),                              # 4, 5
    ("remove a x", "drop-keys 1:2"),                                # 6
    ("insert a y 3", ""),                                           # 7, 8
    ("clear a", "drop-keys 1:7 drop-values 1:8"),
    ("insert a z 1", ""),                                           # 9, 10
    ("entry a z i 5", "drop-keys 1:11"),                            # 11, 12
    ("entry a w k 5", "drop-keys 1:13"),                            # 13, 14
    ("entry a w o 6", ""),                                          # 15, 16
    ("or_insert a z 8", "drop-keys 1:17 drop-values 1:18"),         # 17, 18
    # The closures have the serial numbers after those of the words.
    ("or_insert_with a z 9", "drop-keys 1:19 drop-values 1:20 drop-closures 1:21"),
    ("or_insert_with a v 9", "drop-closures 1:24"),                 # 22, 23
    # The 0 that is inserted if the key is absent has the one after that.
    ("and_modify a v 10", "drop-keys 1:25 drop-values 2:51 drop-closures 1:27"),
    ("and_modify a u 10", "drop-values 1:30 drop-closures 1:31"),   # 29, 30
    ("entries a kr 4", "drop-keys 1:22"),                           # 33
    # Above those of the originals by 2^32 are those of the clones.
    ("clone b", ""),
    ("drop b", "drop-keys 2:8589934630 drop-values 2:8589934636 drop-hashers 1:4294967297"),
    ("drain a f", "drop-keys 1:29 drop-values 1:32"),
    ("drop a", "drop-hashers 1:1"),
    ("# caches and sets", ""),
    ("cache_with_hasher a same 1", ""),                             # 34
    ("cache_insert a x 1", ""),                                     # 35, 36
    ("cache_insert a y 2", "drop-keys 1:35 drop-values 1:36"),      # 37, 38
    ("cache_insert a Y 3", "drop-keys 1:39"),                       # 39, 40
    ("cache_extend a x 1 y 2", "drop-keys 2:78 drop-values 2:82"),  # 41, 42, 43, 44
    ("cache_into_iter a b", "drop-hashers 1:4294967330"),
    ("cache_drain a", "drop-keys 1:43 drop-values 1:44"),
    ("cache_drop a", "drop-hashers 1:34"),
    ("set_extend a x y Z", ""),                                     # 45, 46, 47
    ("set_insert a z", "drop-keys 1:48"),
    ("set_replace a z", ""),                                        # 49
    ("set_get_or_insert a X", "drop-keys 1:50"),
    ("set_get_or_insert_with a x", "drop-closures 1:52"),           # 51
    # The closure makes one more.
    ("set_get_or_insert_with a v", "drop-closures 1:54"),           # 53
    ("set_retain a 3", "drop-keys 1:55 drop-closures 1:56"),
    ("set_drain a f", "drop-keys 2:94"),
)
