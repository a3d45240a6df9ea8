"""Scripts on a map of integers, words and schemas, with what is told of each by hand. `write_cases` makes cases of them.

The CIDs are made by python3 (hashlib and base64) from the blocks that are written beside them.
"""

MAP = "type N {String:Int}"
# the block a0
EMPTY = "root bafyreigbtj4x7ip5legnfznufuopl4sg4knzc2cof6duas4b3q2fy6swua\n"

# scripts, their replies and the status
SCRIPTS = (
    ("", "", 0),
    ("\n\n", "", 0),
    ("root", EMPTY, 0),
    ("set /a 1\nget /a\nroot\ndel /a\nroot\nget /a\n", "root bafyreihltcnuuyqp2jm24aqydpnlj7b6w3ogwrplomrjtg5rifv44mmjey\nok 1\nroot bafyreihltcnuuyqp2jm24aqydpnlj7b6w3ogwrplomrjtg5rifv44mmjey\nroot bafyreigbtj4x7ip5legnfznufuopl4sg4knzc2cof6duas4b3q2fy6swua\nroot bafyreigbtj4x7ip5legnfznufuopl4sg4knzc2cof6duas4b3q2fy6swua\nno 2 path\n", 1),
    # a1 62 61 61 02, and a2 61 62 01 62 61 61 02: the shorter key first
    ("set /aa 2\nset /b 1", "root bafyreictyrozy5ievw4yoxluz5csgmfcgmlknr6ucufafkfczz6nhsvt5a\nroot bafyreihbaf6v4gjeo76rl6ncekrny5lwbgyjf7zdw2m7w77xsjm3xvige4\n", 0),
    # a1 61 61 3b 7f ff*7, and behind it 61 62 1b ff*8: the ends of the range
    ("set /a -9223372036854775808\nset /b 18446744073709551615\nget /b", "root bafyreiejn3od72bmwpx2ahylmrixklds5uordemol4kxgx5lywx3aoocgm\nroot bafyreicnrnntwbwywqnzdyrusxdlbf3l7mhpdoyfcarl3gwgge3potmyb4\nok 18446744073709551615\n", 0),
    # a1 61 61 20
    ("set /a -1\nset /a 01\nset /a  1 \nget /a", "root bafyreicbhbeahnah6n4fnieboitkx4yswtog24jlxbj4b7ote5px4osena\nno 3 json\nroot bafyreihltcnuuyqp2jm24aqydpnlj7b6w3ogwrplomrjtg5rifv44mmjey\nok 1\n", 1),
    ("get .", "ok {}\n", 0),
    ("set . 1", "no 4 mismatch\n", 1),
    ("del .", "no 4 mismatch\n", 1),
    ("get /a/b", "no 2 path\n", 1),
    ("set /a/b 1", "no 2 path\n", 1),
    ("del /a", "no 2 path\n", 1),
    ("set / x 1", "no 3 json\n", 1),
    ("get /", "no 2 path\n", 1),
)

# values that stand for no data, and data that are no integer
REFUSED = {
    "no 3 json\n": ("1.5", "{\"/\":1}", "{\"/\":{\"bytes\":\"A\"}}", "18446744073709551616", "-9223372036854775809", "1e999", "[1", "1 1"),
    "no 4 mismatch\n": ("\"x\"", "{\"/\":1,\"x\":2}", "null", "true", "[1]", "{}", "{\"/\":{\"bytes\":\"AQI\"}}"),
}

# lines that aren't of the grammar
NO_LINES = ("get", "put /a 1", "get a", "get /~9", "get  /a", "get /a ", "set /a", "root ", "root\r", "ins /a", "begin ", "get /~")

# words, a schema, what is told under the script `root`, and the status
GIVEN = (
    ([], MAP, "fault 2 words\n", 2),
    (["run", "s", "M", "-", "x"], MAP, "fault 2 words\n", 2),
    (["show", "s", "N", "abc"], MAP, "fault 2 words\n", 2),
    (["run", "t", "N", "-", "x"], MAP, "fault 5 input schema absent\n", 5),
    (["run", "s", "N", "-", "y"], MAP, "fault 5 input script absent\n", 5),
    (["run", "s", "N", "-", "x"], "type N {String:Int}\n", EMPTY, 0),
    (["check"], MAP, "fault 2 words\n", 2),
    (["check", "t"], MAP, "fault 5 input schema absent\n", 5),
    (["run", "s", "N", "-", "y"], "", "fault 2 words\n", 2),
)

# a plain map in other spellings
OPEN = ("type N {String:Int}\n\n", "\ttype\r\nN{ String :Int }", "# é\ntype N {String:Int} # {}", "type N {String:Int} representation map", "advanced HAMT type N {String:Int}", "type N {String:Int} representation\n\nmap advanced HAMT")

# accepted schemas, what `root` is answered on the empty value of their type `N`, the status, and the names that each declares
OTHERS = (
    ("", "fault 2 words\n", 2, "[]"),
    ("advanced HAMT", "fault 2 words\n", 2, "[]"),
    ("type M {String:Int}", "fault 2 words\n", 2, "[\"M\"]"),
    ("type N {String:nullable Int}", EMPTY, 0, "[\"N\"]"),
    ("type N {String:Any}", EMPTY, 0, "[\"N\"]"),
    ("type N {String:N}", EMPTY, 0, "[\"N\"]"),
    ("type N {String:[Int]}", EMPTY, 0, "[\"N\"]"),
    ("type N {String:Int} representation listpairs", "root bafyreidwx2fvfdiaox32v2mnn6sxu3j4qoxeqcuenhtgrv5qv6litfnmoe\n", 0, "[\"N\"]"),
    ("type N {String:Int} representation advanced HAMT", "root bafyreihn72qdqs5xwehgcqeepxbqs3zkocg5l7f4vn3asclloqtrgj3uqe\n", 0, "[\"N\"]"),
    ("type N = Map", EMPTY, 0, "[\"N\"]"),
    ("type N = List", "root bafyreidwx2fvfdiaox32v2mnn6sxu3j4qoxeqcuenhtgrv5qv6litfnmoe\n", 0, "[\"N\"]"),
    ("type N [Int]", "root bafyreidwx2fvfdiaox32v2mnn6sxu3j4qoxeqcuenhtgrv5qv6litfnmoe\n", 0, "[\"N\"]"),
    ("type N {String:Int} type M bool", EMPTY, 0, "[\"N\",\"M\"]"),
    ("type M {String:Int} type N = M", EMPTY, 0, "[\"M\",\"N\"]"),
    ("type N bool", "fault 9 value 4 mismatch\n", 9, "[\"N\"]"),
    ("type N struct {}", "fault 9 value 4 mismatch\n", 9, "[\"N\"]"),
    ("type N = String", "fault 9 value 4 mismatch\n", 9, "[\"N\"]"),
)

# schemas with a fault, and what is told of it
FAULTY = (
    ("type A ;", "lex 1 char at 7"),
    ("# é\ntype A struct { a \"x", "lex 2 unended at 23"),
    ("type A strut {}", "parse 1 syntax at 7"),
    ("type A {String:Int", "parse 1 syntax at 18"),
    ("type A bool type A int", "resolve 1 twice at 17"),
    ("type A = B", "resolve 2 unknown at 9"),
    ("type F float", "resolve 3 float at 7"),
    ("type A = B type B = A", "resolve 4 copycycle at 5"),
    ("advanced Hamt", "resolve 5 advanced at 9"),
    ("type Int int type A = B", "resolve 1 twice at 5"),
    ("type N {N:Int}", "accept 11 mapkey at 8"),
    ("type N {Int:Int}", "accept 11 mapkey at 8"),
)
