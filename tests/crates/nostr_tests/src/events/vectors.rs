// Events with the ids and the texts that Python's json and hashlib compute for them.

pub struct Vector {
    // The object's members but for `id` and `sig`.
    pub draft: &'static str,
    pub plain: &'static str,
    pub escaped: &'static str,
    // The lengths of the id's text in the two spellings, in bytes.
    pub lengths: (usize, usize),
    // SHA-256 of the event with the plain id, written with sorted keys.
    pub written: &'static str,
}

pub static VECTORS: [Vector; 12] = [
    Vector {
        draft: r##""pubkey":"2bd806c97f0e00af1a1fc3328fa763a9269723c8db8fac4f93af71db186d6e90","created_at":1673347337,"kind":0,"tags":[],"content":"{\"name\":\"alice\",\"about\":\"caf\u00e9 \u2615 \\\"quoted\\\"\",\"picture\":\"https://example.com/a.png\"}""##,
        plain: "638cc209097deebe7645d17aeeadc5c1740cf6e0fcf54904dc87d0ed9870a334",
        escaped: "638cc209097deebe7645d17aeeadc5c1740cf6e0fcf54904dc87d0ed9870a334",
        lengths: (190, 190),
        written: "21b8cabbb2b76c52e2f7bbffa9cd1e5154d17bf8ba6d5a46eb4887fd748fc47e",
    },
    Vector {
        draft: r##""pubkey":"81b637d8fcd2c6da6359e6963113a1170de795e4b725b84d1e0b4cfd9ec58ce9","created_at":1700000000,"kind":1,"tags":[],"content":"Hello, nostr! \ud83e\udd80 \u65e5\u672c\u8a9e \u05e9\u05dc\u05d5\u05dd""##,
        plain: "2774c1d7267ec0d88060e11d238711842e2fdaf5bb663474fc33307050c4f6b3",
        escaped: "2774c1d7267ec0d88060e11d238711842e2fdaf5bb663474fc33307050c4f6b3",
        lengths: (126, 126),
        written: "d5d529fede1aa372f49d9d1aa3e7fd0f7a90425567873b17f679d147946dfe34",
    },
    Vector {
        draft: r##""pubkey":"2bd806c97f0e00af1a1fc3328fa763a9269723c8db8fac4f93af71db186d6e90","created_at":1700000001,"kind":1,"tags":[["e","4813494d137e1631bba301d5acab6e7bb7aa74ce1185d456565ef51d737677b2","wss://relay.example.com","root"],["p","81b637d8fcd2c6da6359e6963113a1170de795e4b725b84d1e0b4cfd9ec58ce9"],["t","nostr"]],"content":"reply with\nnewline, tab\t, return\r, quote \", backslash \\ and slash /""##,
        plain: "9cfada5fbbec038bcb947d4e4b44cce7ebd394e285d1c59886537e6b1d849f9c",
        escaped: "9cfada5fbbec038bcb947d4e4b44cce7ebd394e285d1c59886537e6b1d849f9c",
        lengths: (353, 353),
        written: "1ed94cebd6971ac4deb1ad6624f4b4d4ef0e90e8e80497ab7742acdb1c44304f",
    },
    Vector {
        draft: r##""pubkey":"4c26d9074c27d89ede59270c0ac14b71e071b15239519f75474b2f3ba63481f5","created_at":1700000002,"kind":3,"tags":[["p","2bd806c97f0e00af1a1fc3328fa763a9269723c8db8fac4f93af71db186d6e90","wss://a.example","al"],["p","81b637d8fcd2c6da6359e6963113a1170de795e4b725b84d1e0b4cfd9ec58ce9","",""],["p","4c26d9074c27d89ede59270c0ac14b71e071b15239519f75474b2f3ba63481f5"]],"content":"""##,
        plain: "0d89592539b13bd79f93fcb0bd57a36ff9172edc914145fa60d0f569631e5726",
        escaped: "0d89592539b13bd79f93fcb0bd57a36ff9172edc914145fa60d0f569631e5726",
        lengths: (336, 336),
        written: "907a3d10fcec85f688589703e55006a7438c44f002956cbf6468050f436cbebc",
    },
    Vector {
        draft: r##""pubkey":"81b637d8fcd2c6da6359e6963113a1170de795e4b725b84d1e0b4cfd9ec58ce9","created_at":1700000003,"kind":5,"tags":[["e","2d711642b726b04401627ca9fbac32f5c8530fb1903cc4db02258717921a4881"],["k","1"]],"content":"deleted by mistake""##,
        plain: "b684204e77554f787b58f749345833256fb7389121e4de6d65ff262f0c42f087",
        escaped: "b684204e77554f787b58f749345833256fb7389121e4de6d65ff262f0c42f087",
        lengths: (189, 189),
        written: "d9ac73e431e1ead99e5f451f4faa15bba3ddd5e182ce8613ced3ce4b1faddc0b",
    },
    Vector {
        draft: r##""pubkey":"4c26d9074c27d89ede59270c0ac14b71e071b15239519f75474b2f3ba63481f5","created_at":1700000004,"kind":7,"tags":[["e","a1fce4363854ff888cff4b8e7875d600c2682390412a8cf79b37d0b11148b0fa"],["p","2bd806c97f0e00af1a1fc3328fa763a9269723c8db8fac4f93af71db186d6e90"],["k","1"]],"content":"+""##,
        plain: "9cb4ee592a81c57617f02a79cd36ab94f9d9a93e0af6be90af3195d2b55fca7c",
        escaped: "9cb4ee592a81c57617f02a79cd36ab94f9d9a93e0af6be90af3195d2b55fca7c",
        lengths: (245, 245),
        written: "6e64c61019ad015764a2ba37443cda5ac993a68f83d0d05689b080ccadd79519",
    },
    Vector {
        draft: r##""pubkey":"2bd806c97f0e00af1a1fc3328fa763a9269723c8db8fac4f93af71db186d6e90","created_at":1700000005,"kind":1984,"tags":[["p","81b637d8fcd2c6da6359e6963113a1170de795e4b725b84d1e0b4cfd9ec58ce9","spam"],["e","594e519ae499312b29433b7dd8a97ff068defcba9755b6d5d00e84c524d67b06","spam"],[]],"content":"\u0001\u0002 control \u001f\u007f and \u0080""##,
        plain: "4a8ea3e33bc4de807d3ad77954fafd866508b452aa9cc330c1fe5eb66c38ea6f",
        escaped: "bae3ddf8dcf34ba25c4fbe40d528f5ee16b5ac2a637f0f6b0c1db57b5d5d1de2",
        lengths: (274, 289),
        written: "4edf61ef00d31ad04f2bbc2dea818ca8e21f46e291da16476e67d36cce17a0b0",
    },
    Vector {
        draft: r##""pubkey":"81b637d8fcd2c6da6359e6963113a1170de795e4b725b84d1e0b4cfd9ec58ce9","created_at":1700000006,"kind":9735,"tags":[["p","4c26d9074c27d89ede59270c0ac14b71e071b15239519f75474b2f3ba63481f5"],["P","2bd806c97f0e00af1a1fc3328fa763a9269723c8db8fac4f93af71db186d6e90"],["bolt11","lnbc10u1p3unwfusp5t9r3yymhpfqculx78u027lxspgxcr2n2987mx2j55nnfs95nxnzqpp5jmrh92pfld78spqs78v9euf2385t83uvpwk9ldrlvf6ch7tpascq"],["description","{\"pubkey\":\"2bd806c97f0e00af1a1fc3328fa763a9269723c8db8fac4f93af71db186d6e90\",\"content\":\"\",\"kind\":9734,\"tags\":[[\"amount\",\"1000\"]]}"],["preimage","5d006d2cf1e73c7148e7519a4c68adc81642ce0e25a432b2434c99f97344c15f"]],"content":"""##,
        plain: "e904e0fc665b45f348a222404012710afc23145fcab81a6e85288127bd30a485",
        escaped: "e904e0fc665b45f348a222404012710afc23145fcab81a6e85288127bd30a485",
        lengths: (620, 620),
        written: "a0fbb371c32b090781d02ab80b4d34859111a2fae213e12ea233465324edf9dd",
    },
    Vector {
        draft: r##""pubkey":"4c26d9074c27d89ede59270c0ac14b71e071b15239519f75474b2f3ba63481f5","created_at":1700000007,"kind":30023,"tags":[["d","lorem-ipsum"],["title","Lorem \u201cIpsum\u201d"],["published_at","1296962229"],["t","placeholder"],["a","30023:2bd806c97f0e00af1a1fc3328fa763a9269723c8db8fac4f93af71db186d6e90:ipsum","wss://relay.nostr.org"]],"content":"# Title\n\nLorem [ipsum](nostr:naddr1) \b\f\u000b end\n""##,
        plain: "4a0e36301520ef1c0c3faa248b2a5e87f3cfb6cb539f7c2206345e8c2c975489",
        escaped: "9cee3af11e8cfd587b7ef194ead9e34225d4982b4903e820d50320a1d36d25a6",
        lengths: (351, 356),
        written: "94cb962889abf58360495911f48c7ebda8211ca4c0810219f0009dd8dc99f27e",
    },
    Vector {
        draft: r##""pubkey":"2bd806c97f0e00af1a1fc3328fa763a9269723c8db8fac4f93af71db186d6e90","created_at":0,"kind":65535,"tags":[[],[""],["",""],["a","b"]],"content":"\u0000""##,
        plain: "e4c8b7bf37cc27da6f8d6fb47f4f818f4a64233ce97e124573c9dd71fe981328",
        escaped: "e788dd8507d64136b676216d1adcb0604bdc14616e4a5e1fa43d2f668fd1b498",
        lengths: (110, 115),
        written: "ad6cce850d21ee1748ef7c4417b94d8d7f776c8d46a93b655237e526cc4eb736",
    },
    Vector {
        draft: r##""pubkey":"81b637d8fcd2c6da6359e6963113a1170de795e4b725b84d1e0b4cfd9ec58ce9","created_at":18446744073709551614,"kind":1,"tags":[["emoji","\ud83d\udc68\u200d\ud83d\udc69\u200d\ud83d\udc67"],["\n\t","\u001b[31m"]],"content":"\ufeff\u2028\u2029\uffff""##,
        plain: "479cbb78c57579e5d3d14d3da76860ecebfda16ca85bc62f730c75357dc0f953",
        escaped: "bc72c5f4be8179fdf6b5b7e413c1a777f95c25719edf8448712c5adbad226f30",
        lengths: (158, 163),
        written: "a6ed22e883403ba4679105b6bbb348c7fc11c71f4a1cbecacfb2c0d0ed8b6111",
    },
    Vector {
        draft: r##""pubkey":"4c26d9074c27d89ede59270c0ac14b71e071b15239519f75474b2f3ba63481f5","created_at":1700000008,"kind":1,"tags":[["t","\u00e5"]],"content":"e\u0301 is not \u00e9; </script> & \u0007 bell""##,
        plain: "60cfca235020318a8a30e637d37965562d74efafd19faa449f5b2e47851c31e6",
        escaped: "53ca0c95705577af9fdb94ca54389a6bcf6d7d7fd8b1246d31177813ffcbdbf1",
        lengths: (132, 137),
        written: "98faef081303ce1dcf547a65b7a1259bd9d526ad90e0df68939c4cbf7f821698",
    },
];
