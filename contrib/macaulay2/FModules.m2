-- Questions on local cohomology in positive characteristic, answered by the program fmod.
newPackage(
    "FModules",
    Version => "1.0",
    Date => "December 1, 2026",
    Headline => "local cohomology in characteristic p, decided by the program fmod",
    Authors => {{Name => "The authors of fmod"}},
    Keywords => {"Commutative Algebra"},
    DebuggingMode => false
    )

export {
    "fmodProgram",
    "fmodProblem",
    "fmodReport",
    "fmodAnswers",
    "localCohomologyIsZero",
    "localCohomologySupport",
    "localCohomologyRoot",
    "localCohomologyInverting",
    "localCohomologyClass",
    "localCohomologyMap",
    "Budget",
    "Keep",
    "answer",
    "matrices",
    "report",
    "isZero",
    "moves",
    "stage",
    "power",
    "supportIdeal",
    "isOneToOne",
    "isOnto",
    "rootRank"
    }

-- How the program is called.
fmodProgram = method(Dispatch => Thing)
program = if getenv "FMOD" === "" then "fmod" else getenv "FMOD"
fmodProgram Sequence := s -> program
fmodProgram String := s -> program = s

-- ---- writing

primeOf = R -> (
    p := char R;
    if not isPolynomialRing R or coefficientRing R =!= ZZ/p then error "expected a polynomial ring over ZZ/p";
    if numgens R > 8 then error "expected at most 8 variables";
    p)

names = R -> apply(numgens R, k -> "v" | toString(k + 1))

-- a polynomial in the variables v1, v2, ..
polynomialText = f -> (
    R := ring f;
    if f == 0 then return "0";
    p := char R;
    v := names R;
    demark("+", apply(listForm f, (exponents, coefficient) -> demark("*",
        {toString((lift(coefficient, ZZ)) % p)} | flatten apply(#exponents, k -> if exponents#k == 0 then {} else {v#k | "^" | toString(exponents#k)})))))

-- the text of a problem: the ideals by their names, and the queries as lines
fmodProblem = method()
fmodProblem(Ring, List, List) := (R, ideals, queries) -> (
    p := primeOf R;
    heads := {"ring " | toString p | concatenate apply(names R, v -> " " | v)};
    lines := apply(ideals, (name, I) -> (
        if ring I =!= R then error "expected ideals of one ring";
        "ideal " | name | " = " | (if numgens I == 0 then "0" else demark(", ", apply(I_*, polynomialText)))));
    demark("\n", heads | lines | queries) | "\n")

-- ---- calling

-- the report of a problem text; what is written stays in the named folder, or in none
fmodReport = method(Options => {Budget => 200000, Keep => null})
fmodReport String := opts -> text -> (
    folder := if opts.Keep === null then temporaryFileName() else opts.Keep;
    if not isDirectory folder then makeDirectory folder;
    base := folder | "/problem";
    (base | ".txt") << text << close;
    status := run(program | " decide --budget " | toString opts.Budget | " < " | base | ".txt > " | base | ".report");
    if status >= 256 then status = status // 256;
    report := get(base | ".report");
    if opts.Keep === null then (removeFile(base | ".txt"); removeFile(base | ".report"); removeDirectory folder);
    if status =!= 0 and status =!= 3 then error("fmod ended with status " | toString status | ": " | report);
    report)

-- ---- reading

polynomialOf = (R, text) -> (
    index := hashTable apply(numgens R, k -> "v" | toString(k + 1) => k);
    if text == "0" then return 0_R;
    sum apply(separate("\\+", text), t -> product apply(separate("\\*", t), factor -> (
        parts := separate("\\^", factor);
        if index#?(parts#0) then R_(index#(parts#0))^(if #parts == 1 then 1 else value(parts#1)) else (value factor)_R))))

vectorOf = (R, text) -> (
    inner := substring(1, #text - 2, text);
    if inner == "" then {} else apply(separate(",", inner), t -> polynomialOf(R, t)))

matrixOf = (R, words) -> (
    rows := value(words#3);
    columns := apply(drop(words, 5), w -> vectorOf(R, w));
    map(R^rows, R^(#columns), (i, j) -> columns#j#i))

-- one query: its answer, and the matrices that are named under it, as "d 1" or "K 1"
blockOf = (R, lines) -> (
    parts := new MutableHashTable;
    named := new MutableHashTable;
    prefix := "";
    for line in drop(lines, 2) do (
        words := separate(" ", line);
        if words#0 == "part" and words#2 == "given" then parts#(value(words#1)) = matrixOf(R, words)
        else if words#0 == "datum" then prefix = words#1 | " "
        else if #words >= 2 and #words <= 3 and parts#?(value last words) then named#(prefix | demark(" ", drop(words, -1))) = parts#(value last words));
    hashTable {answer => lines#1, matrices => new HashTable from named})

fmodAnswers = method()
fmodAnswers(Ring, String) := (R, text) -> (
    blocks := {};
    block := {};
    for line in lines text do (
        if match("^query ", line) then block = {line}
        else if match("^done ", line) then (blocks = append(blocks, blockOf(R, block)); block = {})
        else if #block > 0 then block = append(block, line));
    blocks)

-- ---- questions

ask = (R, ideals, query, opts) -> (
    report := fmodReport(fmodProblem(R, ideals, {query}), opts);
    b := first fmodAnswers(R, report);
    if not match("^answer ", b.answer) then error("fmod gives no answer: " | b.answer);
    (drop(separate(" ", b.answer), 1), b.matrices, report))

localCohomologyIsZero = method(Options => {Budget => 200000, Keep => null})
localCohomologyIsZero(ZZ, Ideal) := opts -> (i, I) -> (
    (words, found, text) := ask(ring I, {("I", I)}, "zero " | toString i | " I", opts);
    hashTable {isZero => words#0 == "yes", moves => value(words#2), matrices => found, report => text})

localCohomologySupport = method(Options => {Budget => 200000, Keep => null})
localCohomologySupport(ZZ, Ideal) := opts -> (i, I) -> (
    R := ring I;
    (words, found, text) := ask(R, {("I", I)}, "support " | toString i | " I", opts);
    generators := separate(", ", demark(" ", drop(words, 1)));
    hashTable {supportIdeal => ideal apply(generators, t -> polynomialOf(R, t)), matrices => found, report => text})

localCohomologyRoot = method(Options => {Budget => 200000, Keep => null})
localCohomologyRoot(ZZ, Ideal) := opts -> (i, I) -> (
    (words, found, text) := ask(ring I, {("I", I)}, "root " | toString i | " I", opts);
    hashTable {rootRank => value(words#2), moves => value(words#4), matrices => found, report => text})

localCohomologyInverting = method(Options => {Budget => 200000, Keep => null})
localCohomologyInverting(ZZ, Ideal, RingElement) := opts -> (i, I, f) -> (
    (words, found, text) := ask(ring I, {("I", I)}, "invert " | toString i | " I " | polynomialText f, opts);
    hashTable {isZero => words#0 == "yes", power => if words#0 == "yes" then value(words#2) else null, matrices => found, report => text})

localCohomologyClass = method(Options => {Budget => 200000, Keep => null})
localCohomologyClass(ZZ, Ideal, ZZ, List) := opts -> (i, I, e, z) -> (
    vector := "(" | demark(",", apply(z, f -> polynomialText promote(f, ring I))) | ")";
    (words, found, text) := ask(ring I, {("I", I)}, "class " | toString i | " I " | toString e | " " | vector, opts);
    hashTable {isZero => words#0 == "yes", stage => if words#0 == "yes" then value(words#2) else null, matrices => found, report => text})

localCohomologyMap = method(Options => {Budget => 200000, Keep => null})
localCohomologyMap(ZZ, Ideal, Ideal) := opts -> (i, J, I) -> (
    (words, found, text) := ask(ring I, {("J", J), ("I", I)}, "map " | toString i | " J I", opts);
    hashTable {
        isZero => words#1 == "yes",
        isOneToOne => words#3 == "yes",
        isOnto => words#5 == "yes",
        stage => if words#5 == "yes" then value(words#7) else null,
        matrices => found,
        report => text})

beginDocumentation()

doc ///
    Key
        FModules
    Headline
        local cohomology in characteristic p, decided by the program fmod
    Description
        Text
            For an ideal $I$ of $R = GF(p)[x_1,..,x_n]$ the modules $H^i_I(R)$ are in general not finitely generated. By G. Lyubeznik's theory of
            F-modules each is the direct limit of the Frobenius twists of one finitely generated module, so finite data decide it. The
            program @TT "fmod"@ does so, and is proved to be right. This package writes problems for it and reads its reports.
        Text
            The program has to be in the path, or its name is given by @TO fmodProgram@ or in the environment as @TT "FMOD"@.
        Example
            R = ZZ/2[x,y,z,w];
            I = intersect(ideal(x,y), ideal(z,w));
        CannedExample
            i3 : (localCohomologyIsZero(3, I)).isZero

            o3 = false
///

doc ///
    Key
        fmodProgram
    Headline
        the name of the program
    Usage
        fmodProgram()
        fmodProgram s
    Inputs
        s:String
            how the program is called
    Outputs
        :String
///

doc ///
    Key
        localCohomologyIsZero
        (localCohomologyIsZero, ZZ, Ideal)
        [localCohomologyIsZero, Budget]
        [localCohomologyIsZero, Keep]
    Headline
        whether a local cohomology module is zero
    Usage
        localCohomologyIsZero(i, I)
    Inputs
        i:ZZ
            a degree
        I:Ideal
            of a polynomial ring over ZZ/p
        Budget => ZZ
            units of work
        Keep => String
            a folder in which the problem and the report stay
    Outputs
        :HashTable
            with the keys isZero, moves (after how many moves the chain of kernels is stable), matrices and report
///

doc ///
    Key
        localCohomologyMap
        (localCohomologyMap, ZZ, Ideal, Ideal)
        [localCohomologyMap, Budget]
        [localCohomologyMap, Keep]
    Headline
        the map that an inclusion of ideals induces
    Usage
        localCohomologyMap(i, J, I)
    Inputs
        i:ZZ
            a degree
        J:Ideal
        I:Ideal
            inside J
    Outputs
        :HashTable
            with the keys isZero, isOneToOne, isOnto, stage, matrices and report
///

TEST ///
R = ZZ/2[x,y,z,w];
I = ideal(x*z, x*w, y*z, y*w);
assert not (localCohomologyIsZero(2, I)).isZero
assert not (localCohomologyIsZero(3, I)).isZero
assert((localCohomologyIsZero(4, I)).isZero)
assert((localCohomologySupport(3, I)).supportIdeal == ideal(x, y, z, w))
assert((localCohomologyInverting(3, I, w)).power == 1)
///

TEST ///
R = ZZ/2[x,y];
r = localCohomologyIsZero(2, ideal(x^2, x*y));
assert(r.isZero and r.moves == 1)
assert(entries(r.matrices#"I U") == {{x^2*y}})
assert((localCohomologyClass(2, ideal(x^2, x*y), 0, {1})).stage == 1)
assert((localCohomologyRoot(2, ideal(x, y))).rootRank == 1)
///

TEST ///
S = ZZ/3[a,b];
assert not (localCohomologyClass(1, ideal(a*b), 0, {a})).isZero
assert(fmodProblem(S, {("I", ideal(a*b-2*b^2))}, {"zero 1 I"}) == "ring 3 v1 v2\nideal I = 1*v1^1*v2^1+1*v2^2\nzero 1 I\n")
///
