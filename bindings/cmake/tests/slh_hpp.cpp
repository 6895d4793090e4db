// Tests c/include/slh.hpp: tests of a vector file from standard input, and the types by themselves.
// tests/test_slh_hpp.py compiles and runs it. The last line has the counts, and the status is 0 if nothing failed.
#include <slh.hpp>

#include <malloc.h>

#include <algorithm>
#include <array>
#include <atomic>
#include <cstdlib>
#include <iostream>
#include <map>
#include <new>
#include <sstream>
#include <thread>
#if __cplusplus >= 202002L
#include <span>
#endif

namespace {

int passed = 0, failed = 0;

void expect(bool holds, const std::string &name) {
    ++(holds ? passed : failed);
    if (!holds) std::cout << "failed: " << name << '\n';
}

// Whether a call throws this refusal, and says so: its number, and a part of its text.
template <class F> bool refuses(F call, std::uint32_t number, const std::string &said) {
    try {
        call();
    } catch (const slh::Error &error) {
        return error.number == number && std::string(error.what()).find(said) != std::string::npos &&
               std::string(error.text()).size() > 3;
    }
    return false;
}

slh::Bytes from_digits(const std::string &digits) {
    slh::Bytes bytes;
    for (std::size_t at = 0; at + 1 < digits.size(); at += 2)
        bytes.push_back(static_cast<std::uint8_t>(std::stoul(digits.substr(at, 2), nullptr, 16)));
    return bytes;
}

// A test of a vector file: a line of words `name=value`.
using Test = std::map<std::string, std::string>;

Test read_test(const std::string &line) {
    Test test;
    std::istringstream words(line);
    for (std::string word; words >> word;) {
        const std::size_t at = word.find('=');
        test[word.substr(0, at)] = word.substr(at + 1);
    }
    return test;
}

constexpr slh_set set = SLH_DSA_SHA2_128F;
const std::map<std::string, slh_function> functions = {
    {"SHA2-224", SLH_SHA2_224}, {"SHA2-256", SLH_SHA2_256},         {"SHA2-384", SLH_SHA2_384},
    {"SHA2-512", SLH_SHA2_512}, {"SHA2-512/224", SLH_SHA2_512_224}, {"SHA2-512/256", SLH_SHA2_512_256},
};

slh::Bytes bytes_of(const Test &test, const std::string &name) { return from_digits(test.at(name)); }

void keygen(const Test &test) {
    const auto sk = slh::SecretKey::keygen(set, bytes_of(test, "skSeed"), bytes_of(test, "skPrf"),
                                           bytes_of(test, "pkSeed"));
    const slh::View bytes = sk.bytes();
    expect(slh::Bytes(bytes.data, bytes.data + bytes.size) == bytes_of(test, "sk"), "the secret key of seeds");
    expect(sk.public_key().bytes() == bytes_of(test, "pk") && sk.check(), "the public key of seeds");
}

void sign(const Test &test) {
    const auto sk = slh::SecretKey::from_bytes(set, bytes_of(test, "sk"));
    const slh::Bytes message = bytes_of(test, "message"), context = bytes_of(test, "context");
    const slh::Bytes random = bytes_of(test, "random");
    slh::Options options;
    options.context = context, options.randomizer = random, options.deterministic = random.empty();
    for (const int checks : {0, 1, 2, 3}) {
        options.once = checks & 1, options.verify = checks & 2;
        const bool is_pure = test.at("form") == "pure";
        const slh::Bytes made =
            is_pure ? sk.sign(message, options) : sk.hash_sign(functions.at(test.at("form")), message, options);
        expect(made == bytes_of(test, "signature"), "a signature of " + test.at("form"));
    }
}

void verify(const Test &test) {
    const slh::PublicKey pk(set, bytes_of(test, "pk"));
    const slh::Bytes message = bytes_of(test, "message"), context = bytes_of(test, "context");
    const slh::Bytes signature = bytes_of(test, "signature");
    const bool is_valid = test.at("form") == "pure"
                              ? pk.verify(message, signature, context)
                              : pk.hash_verify(functions.at(test.at("form")), message, signature, context);
    expect(is_valid == (test.at("valid") == "True"), "a verdict of " + test.at("form"));
}

// The verify tests of the pure form, as items of verify_many, and whether they are valid.
struct Many {
    std::vector<Test> tests;
    std::vector<slh::PublicKey> keys;
    std::vector<std::array<slh::Bytes, 3>> parts;

    void add(const Test &test) {
        if (test.at("kind") != "verify" || test.at("form") != "pure") return;
        tests.push_back(test);
        keys.emplace_back(set, bytes_of(test, "pk"));
        parts.push_back({bytes_of(test, "message"), bytes_of(test, "signature"), bytes_of(test, "context")});
    }

    // Compares the verdicts on so many tests from this one on.
    void compare(std::size_t count, std::size_t first) const {
        std::vector<slh::Signed> items;
        std::vector<bool> wanted;
        for (std::size_t at = first; at < first + count; ++at) {
            items.push_back({&keys[at], parts[at][0], parts[at][1], parts[at][2]});
            wanted.push_back(tests[at].at("valid") == "True");
        }
        expect(slh::verify_many(items) == wanted, std::to_string(count) + " verdicts from " + std::to_string(first));
    }

    void compare_all() const {
        expect(tests.size() > 20, "tests of verify_many");
        const std::size_t counts[] = {0, 1, 7, 8, 9, 17};
        for (const std::size_t count : counts)
            for (std::size_t first = 0; first + count <= tests.size(); first += 3) compare(count, first);
    }
};

// In a list of valid items one is not, by another message, context, key, set or signature.
void test_many() {
    const auto secret = slh::SecretKey::generate(set), other = slh::SecretKey::generate(set);
    const auto key = secret.public_key(), other_key = other.public_key();
    const slh::PublicKey of_other_set(SLH_DSA_SHA2_128S, key.bytes());
    const slh::Bytes signature = secret.sign("letter"), long_context(256);
    slh::Bytes damaged = signature;
    damaged.back() ^= 1;
    const slh::Signed good = {&key, "letter", signature, {}};
    const std::vector<slh::Signed> bad = {
        {&other_key, "letter", signature, {}}, {&of_other_set, "letter", signature, {}},
        {&key, "letters", signature, {}},      {&key, "letter", signature, long_context},
        {&key, "letter", damaged, {}},         {&key, "letter", {signature.data(), signature.size() - 1}, {}}};
    for (const auto &[count, place] : {std::pair{1, 0}, {7, 3}, {8, 0}, {8, 7}, {9, 8}, {17, 8}, {17, 16}})
        for (const slh::Signed &it : bad) {
            std::vector<slh::Signed> items(std::size_t(count), good);
            std::vector<bool> wanted(std::size_t(count), true);
            items[std::size_t(place)] = it;
            wanted[std::size_t(place)] = false;
            expect(slh::verify_many(items) == wanted, "a damaged item at " + std::to_string(place));
        }
}

void run_vectors() {
    std::map<std::string, int> kinds;
    Many many;
    for (std::string line; std::getline(std::cin, line);) {
        const Test test = read_test(line);
        const std::string kind = test.at("kind");
        ++kinds[kind];
        many.add(test);
        kind == "keygen" ? keygen(test) : kind == "sign" ? sign(test) : verify(test);
    }
    many.compare_all();
    expect(kinds["keygen"] > 0 && kinds["sign"] > 1 && kinds["verify"] > 1, "tests of each kind");
}

template <class T, class = void> struct Streams : std::false_type {};
template <class T>
struct Streams<T, std::void_t<decltype(std::declval<std::ostream &>() << std::declval<const T &>())>>
    : std::true_type {};
template <class T, class = void> struct Compares : std::false_type {};
template <class T>
struct Compares<T, std::void_t<decltype(std::declval<const T &>() == std::declval<const T &>())>> : std::true_type {};

// Operations that a secret key does not have, and that other types have.
void test_traits() {
    using Key = slh::SecretKey;
    static_assert(!std::is_copy_constructible_v<Key> && !std::is_copy_assignable_v<Key>);
    static_assert(std::is_nothrow_move_constructible_v<Key> && std::is_nothrow_move_assignable_v<Key>);
    static_assert(!Streams<Key>::value && !Compares<Key>::value && !std::is_default_constructible_v<Key>);
    static_assert(!std::is_convertible_v<Key, slh::View> && !std::is_convertible_v<Key, slh::PublicKey>);
    static_assert(!std::is_trivially_copyable_v<Key> && !std::is_polymorphic_v<Key>);
    static_assert(Compares<slh::PublicKey>::value && std::is_copy_constructible_v<slh::PublicKey>);
    static_assert(Streams<int>::value && Compares<int>::value, "these find what is there");
    auto first = Key::generate(set);
    const slh::PublicKey public_key = first.public_key();
    Key second = std::move(first);
    expect(second.public_key() == public_key, "a key moves");
    try {
        (void)first.sign("letter"); // NOLINT: it was moved from
        expect(false, "a key that was moved signs nothing");
    } catch (const std::logic_error &) {
        expect(true, "a key that was moved signs nothing");
    }
    expect(!(Key::generate(set).public_key() == public_key), "keys differ");
}

void test_views() {
    const auto sk = slh::SecretKey::generate(set);
    const slh::PublicKey pk = sk.public_key();
    const std::string text = "letter";
    const std::array<unsigned char, 6> array = {'l', 'e', 't', 't', 'e', 'r'};
    slh::Options options;
    options.deterministic = true;
    const slh::Bytes signature = sk.sign("letter", options);
    expect(signature == sk.sign(text, options) && signature == sk.sign(array, options), "views of one message");
    expect(signature == sk.sign(std::string_view(text), options), "a view of a string_view");
    expect(signature == sk.sign({text.data(), text.size()}, options), "a view of a pointer and a length");
#if __cplusplus >= 202002L
    expect(signature == sk.sign(std::span(array), options), "a view of a span");
    expect(signature == sk.sign("letter", {.deterministic = true, .once = true}), "options by name");
#endif
    expect(pk.verify(text, signature) && !pk.verify("Letter", signature), "verdicts");
    expect(sk.sign("letter") != sk.sign("letter"), "randomizers are drawn");
    const slh::Bytes digest(32);
    const slh::Bytes by_digest = sk.hash_sign_digest(SLH_SHA2_256, digest);
    expect(pk.hash_verify_digest(SLH_SHA2_256, digest, by_digest), "a signature by its digest");
    expect(!pk.hash_verify_digest(SLH_SHA2_512_256, digest, by_digest), "a verdict of another function");
}

// Whether a call throws std::invalid_argument, and says so.
template <class F> bool is_invalid(F call, const std::string &said) {
    try {
        call();
    } catch (const std::invalid_argument &error) {
        return std::string(error.what()).find(said) != std::string::npos;
    }
    return false;
}

// An array is a text only if its one zero byte is its last. Nothing of any other is signed.
void test_texts() {
    const auto sk = slh::SecretKey::generate(set);
    const char inside[] = "let\0ter", padded[8] = "letter", open[6] = {'l', 'e', 't', 't', 'e', 'r'};
    const char *const pointer = inside, *const none = nullptr;
    const std::string whole(inside, sizeof inside - 1), said = "write View(array, count)";
    slh::Options options;
    options.deterministic = true;
    expect(is_invalid([&] { (void)sk.sign(inside); }, said), "an array with a zero byte inside");
    expect(is_invalid([&] { (void)sk.sign("let\0ter"); }, said), "a literal with a zero byte inside");
    expect(is_invalid([&] { (void)sk.sign("\0"); }, said), "a literal that begins with a zero byte");
    expect(is_invalid([&] { (void)sk.sign(padded); }, said), "an array with two zero bytes at its end");
    expect(is_invalid([&] { (void)sk.sign(open); }, said), "an array without a zero byte");
    expect(is_invalid([&] { (void)sk.public_key().verify(inside, slh::Bytes(3)); }, said), "a message to verify");
    expect(is_invalid([&] { options.context = "a\0b"; }, said), "a context with a zero byte inside");
    expect(is_invalid([&] { (void)sk.sign(none); }, "a null pointer is no text"), "a null pointer");
    const slh::Bytes signature = sk.sign({inside, sizeof inside - 1}, options);
    expect(signature == sk.sign(whole, options), "an array with its length is signed whole");
    expect(signature != sk.sign(pointer, options) && sk.sign(pointer, options) == sk.sign("let", options),
           "a pointer is a text up to its zero byte");
    expect(sk.sign("", options) == sk.sign(slh::View(), options), "an empty literal is the empty message");
}

void test_refusals() {
    const auto sk = slh::SecretKey::generate(set);
    const slh::Bytes some(300);
    slh::Options options;
    options.context = some;
    expect(refuses([&] { (void)sk.sign("letter", options); }, 2, "2 ContextTooLong"), "a long context");
    options = {}, options.randomizer = slh::View(some.data(), 15);
    expect(refuses([&] { (void)sk.sign("letter", options); }, 17,
                   "17 BadRandomizerLength: 16 bytes expected, 15 given"), "a short randomizer");
    options.randomizer = slh::View(some.data(), 16), options.deterministic = true;
    expect(refuses([&] { (void)sk.sign("letter", options); }, 17, "0 bytes expected, 16 given"), "both randomizers");
    expect(refuses([&] { slh::PublicKey(set, {some.data(), 33}); }, 3, "3 BadLength: 32 bytes expected, 33 given"),
           "a long public key");
    expect(refuses([&] { slh::SecretKey::from_bytes(set, {some.data(), 63}); }, 3,
                   "3 BadLength: 64 bytes expected, 63 given"), "a short secret key");
    expect(refuses([] { slh::SecretKey::generate(static_cast<slh_set>(7)); }, 8, "8 NoSuchSet"), "no set");
    expect(refuses([&] { (void)sk.hash_sign_digest(SLH_SHA2_256, "short"); }, 16, "16 BadDigestLength"), "a digest");
    expect(!sk.public_key().verify("letter", slh::View(some)), "a signature of another length is invalid");
}

// SK.seed, which is searched for in each block of memory that is freed.
slh::Bytes *wanted = nullptr;
int left = 0, freed = 0;

// Whether blocks of a signature's length are counted that are freed, and of these the ones that have other bytes than
// 0.
bool is_counting = false;
int signatures = 0, kept_signatures = 0;

void count_signature(const std::uint8_t *bytes, std::size_t size) {
    if (!is_counting || size < SLH_DSA_SHA2_128F_SIGNATURE) return;
    ++signatures;
    kept_signatures += std::any_of(bytes, bytes + SLH_DSA_SHA2_128F_SIGNATURE, [](int byte) { return byte != 0; });
}


// Under a wrong root each signature is not valid, as after a fault.
void test_faults() {
    const auto right = slh::SecretKey::generate(set);
    slh::Bytes bytes(right.bytes().data, right.bytes().data + right.bytes().size);
    bytes.back() ^= 1;
    const auto wrong = slh::SecretKey::from_bytes(set, bytes);
    expect(!wrong.check() && right.check(), "check");
    slh::Options options;
    expect(!wrong.public_key().verify("letter", wrong.sign("letter", options)), "a wrong root signs nothing valid");
    options.verify = is_counting = true;
    expect(refuses([&] { (void)wrong.sign("letter", options); }, SLH_FAULT, "38 Fault"), "verify finds it");
    is_counting = false;
    expect(signatures == 2 && kept_signatures == 0, "a signature that is not valid is erased, and the scratch");
    expect(refuses([&] { (void)wrong.hash_sign(SLH_SHA2_256, "letter", options); }, SLH_FAULT, "38 Fault"), "pre-hash");
    expect(refuses([&] { (void)wrong.hash_sign_digest(SLH_SHA2_256, slh::Bytes(32), options); }, SLH_FAULT, "38 Fault"),
           "by the digest");
}

// Calls of the two functions that sign, and whether slh_keygen flips a bit of a byte: the linker's --wrap leads here.
int single_calls = 0, double_calls = 0, flipped_byte = -1;

// What slh_self_test returns if the library's own result is SLH_DONE.
std::uint32_t self_test_result = SLH_DONE;

} // namespace

extern "C" {
decltype(slh_sign) __real_slh_sign, __wrap_slh_sign;
decltype(slh_sign_twice) __real_slh_sign_twice, __wrap_slh_sign_twice;
decltype(slh_keygen) __real_slh_keygen, __wrap_slh_keygen;
decltype(slh_self_test) __real_slh_self_test, __wrap_slh_self_test;

std::uint32_t __wrap_slh_self_test(std::uint32_t id, std::uint8_t *scratch, std::size_t scratch_len) {
    const std::uint32_t result = __real_slh_self_test(id, scratch, scratch_len);
    return result == SLH_DONE ? self_test_result : result;
}

std::uint32_t __wrap_slh_sign(std::uint32_t id, const std::uint8_t *sk, std::size_t sk_len, const std::uint8_t *msg,
                              std::size_t msg_len, const std::uint8_t *ctx, std::size_t ctx_len,
                              const std::uint8_t *random, std::size_t random_len, std::uint8_t *sig,
                              std::size_t sig_len) {
    ++single_calls;
    return __real_slh_sign(id, sk, sk_len, msg, msg_len, ctx, ctx_len, random, random_len, sig, sig_len);
}

std::uint32_t __wrap_slh_sign_twice(std::uint32_t id, const std::uint8_t *sk, std::size_t sk_len,
                                    const std::uint8_t *msg, std::size_t msg_len, const std::uint8_t *ctx,
                                    std::size_t ctx_len, const std::uint8_t *random, std::size_t random_len,
                                    std::uint8_t *scratch, std::size_t scratch_len, std::uint8_t *sig,
                                    std::size_t sig_len) {
    ++double_calls;
    return __real_slh_sign_twice(id, sk, sk_len, msg, msg_len, ctx, ctx_len, random, random_len, scratch, scratch_len,
                                 sig, sig_len);
}

std::uint32_t __wrap_slh_keygen(std::uint32_t id, const std::uint8_t *one, std::size_t one_len, const std::uint8_t *two,
                                std::size_t two_len, const std::uint8_t *three, std::size_t three_len,
                                std::uint8_t *sk, std::size_t sk_len) {
    const std::uint32_t result = __real_slh_keygen(id, one, one_len, two, two_len, three, three_len, sk, sk_len);
    if (flipped_byte >= 0) sk[flipped_byte] ^= 1;
    return result;
}
}

namespace {

// Signing is two computations, unless the caller says once. The deprecated word asks for two.
void test_computations(const slh::SecretKey &sk) {
    for (const auto &[once, twice] : {std::pair(false, false), {true, false}, {false, true}, {true, true}}) {
        slh::Options options;
        options.once = once, options.twice = twice, single_calls = double_calls = 0;
        (void)sk.sign("letter", options);
        const int wanted = once && !twice;
        expect(single_calls == wanted && double_calls == 1 - wanted, "the number of computations");
    }
    single_calls = double_calls = 0;
    (void)sk.sign("letter");
    expect(single_calls == 0 && double_calls == 1, "two computations without options");
}

// A key whose SK.seed, PK.seed or PK.root changes while it is made is not given.
void test_new_keys() {
    for (const int at : {0, 32, 63}) {
        flipped_byte = at;
        expect(refuses([&] { (void)slh::SecretKey::generate(set); }, SLH_FAULT, "38 Fault"), "a new key is checked");
    }
    flipped_byte = -1;
    expect(slh::SecretKey::generate(set).check(), "a new key");
}

// Each set passes. Another result of the library is told.
void test_self_test() {
    for (std::uint32_t id = SLH_DSA_SHA2_128S; id <= SLH_DSA_SHA2_256F; ++id) slh::self_test(static_cast<slh_set>(id));
    expect(refuses([] { slh::self_test(static_cast<slh_set>(7)); }, SLH_NO_SUCH_SET, "8 NoSuchSet"), "no set");
    for (const std::uint32_t result : {SLH_SELF_TEST_FAILED, SLH_INVALID}) {
        self_test_result = result;
        const auto tests = [] { slh::self_test(set); };
        expect(refuses(tests, SLH_SELF_TEST_FAILED, "40 SelfTestFailed"), "another answer of the self-test");
    }
    self_test_result = SLH_DONE;
}

// Whether one of some signatures of a message that another thread changes is a fault.
bool finds_changes(const slh::SecretKey &sk, bool once) {
    static std::array<std::atomic<std::uint64_t>, 4> message{};
    slh::Options options;
    options.deterministic = true, options.once = once;
    std::atomic<bool> ended{false};
    std::thread writer([&] { while (!ended) for (auto &it : message) ++it; });
    bool found = false;
    for (int count = 0; count < 10 && !found; ++count)
        found = refuses([&] { (void)sk.sign({message.data(), sizeof message}, options); }, SLH_FAULT, "38 Fault");
    ended = true;
    writer.join();
    return found;
}

} // namespace

void operator delete(void *block) noexcept {
    const auto *bytes = static_cast<const std::uint8_t *>(block);
    const std::size_t size = block == nullptr ? 0 : malloc_usable_size(block);
    count_signature(bytes, size);
    if (wanted != nullptr && size >= 16) {
        ++freed;
        for (std::size_t at = 0; at + 16 <= size; ++at)
            if (std::equal(wanted->begin(), wanted->begin() + 16, bytes + at)) ++left;
    }
    std::free(block);
}
void operator delete(void *block, std::size_t) noexcept { operator delete(block); }
void *operator new(std::size_t size) {
    if (void *block = std::malloc(size)) return block;
    throw std::bad_alloc();
}

namespace {

void fill_with_sevens(std::uint8_t *bytes, std::size_t size) {
    for (std::size_t at = 0; at < size; ++at) bytes[at] = static_cast<std::uint8_t>(7 * at + 1);
}

void test_erased() {
    static slh::Bytes seeds(48);
    fill_with_sevens(seeds.data(), seeds.size());
    wanted = &seeds;
    {
        auto sk = slh::SecretKey::generate(set, fill_with_sevens);
        const auto again = slh::SecretKey::from_bytes(set, sk.bytes());
        slh::Options options;
        options.verify = true;
        const auto moved = std::move(sk);
        expect(moved.public_key().verify("letter", again.sign("letter", options)), "a key of a source of one's own");
    }
    wanted = nullptr;
    expect(freed > 3 && left == 0, std::to_string(left) + " of " + std::to_string(freed) + " blocks have SK.seed");
}

} // namespace

int main() try {
    run_vectors();
    test_many();
    test_traits();
    test_views();
    test_texts();
    test_refusals();
    test_faults();
    const auto sk = slh::SecretKey::generate(set);
    expect(finds_changes(sk, false) && !finds_changes(sk, true), "two computations that differ are found");
    test_computations(sk);
    test_new_keys();
    test_self_test();
    test_erased();
    std::cout << passed << " passed, " << failed << " failed, 0 skipped\n";
    return failed != 0;
} catch (const std::exception &error) {
    std::cout << "failed: " << error.what() << '\n';
    return 1;
}
