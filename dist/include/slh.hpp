/* SPDX-License-Identifier: MIT OR Apache-2.0
 * SLH-DSA (FIPS 205) with SHA-2 for C++17 and later: types over slh.h, which describes calls, lengths and refusals.
 *
 *   const auto secret = slh::SecretKey::generate(SLH_DSA_SHA2_128F);
 *   const slh::Bytes signature = secret.sign("Dear reader,");
 *   if (!secret.public_key().verify("Dear reader,", signature)) return reject();
 *
 * An error is thrown. With -fno-exceptions it is written to standard error, and std::terminate ends the program.
 */
#pragma once
#include <slh.h>
#include <cstdio>
#include <exception>
#include <memory>
#include <stdexcept>
#include <string>
#include <tuple>
#include <type_traits>
#include <vector>
#if __has_include(<sys/random.h>)
#include <sys/random.h>
#endif
namespace slh {
using Bytes = std::vector<uint8_t>;
template <class E> [[noreturn]] void fail(const E &error) {
#if defined(__cpp_exceptions)
    throw error;
#else
    std::fprintf(stderr, "slh: %s\n", error.what());
    std::terminate();
#endif
}
/* Bytes that a call reads, as of a vector, std::array, string or span: a pointer and a length, which own nothing. */
struct View {
    const uint8_t *data = nullptr;
    size_t size = 0;
    View() = default;
    View(const void *bytes, size_t count) : data(static_cast<const uint8_t *>(bytes)), size(count) {}
    /* A text up to its first zero byte. This is a template: as `const char *` it would take arrays and nullptr, too. */
    template <class T, std::enable_if_t<std::is_same_v<T, const char *> || std::is_same_v<T, char *>, int> = 0>
    View(const T &text) : View(text, text == nullptr ? 0 : std::char_traits<char>::length(text)) {
        if (text == nullptr) fail(std::invalid_argument("a null pointer is no text"));
    }
    /* A literal, without the zero byte at its end. For an array with other ones, or none, write View(array, count). */
    template <size_t N> View(const char (&text)[N]) : View(text, N - 1) {
        const bool is_text = std::char_traits<char>::find(text, N, '\0') == text + N - 1;
        if (!is_text) fail(std::invalid_argument("the array is no text: write View(array, count)"));
    }
    template <size_t N> View(char (&)[N]) = delete; /* write View(array, count) */
    template <class T, class = std::enable_if_t<!std::is_array_v<T> && sizeof *std::data(std::declval<T &>()) == 1>>
    View(const T &bytes) : View(std::data(bytes), std::size(bytes)) {}
};

/* A refusal. what() is its number and name, and the lengths if it is of a key or a randomizer; text() is a sentence. */
struct Error : std::runtime_error {
    const uint32_t number;
    explicit Error(uint32_t result, const std::string &more = {})
        : std::runtime_error(std::to_string(result) + " " + name(result) + more), number(result) {}
    const char *text() const noexcept { return slh_refusal_text(number); }
    static std::string name(uint32_t number) {
        char name[SLH_MAX_NAME] = "";
        return slh_refusal_name(number, name, sizeof name) == SLH_DONE ? name : "NoSuchRefusal";
    }
};

/* Calls a function of slh.h with numbers, and with the pointer and the length of each View and of each output. */
inline std::tuple<uint32_t> arguments(uint32_t number) { return {number}; }
inline std::tuple<const uint8_t *, size_t> arguments(View read) { return {read.data, read.size}; }
inline std::tuple<uint8_t *, size_t> arguments(Bytes &written) { return {written.data(), written.size()}; }
template <class F, class... T> bool call(F function, T &&...it) {
    const uint32_t result = std::apply(function, std::tuple_cat(arguments(it)...));
    if (result != SLH_DONE && result != SLH_INVALID) fail(Error(result));
    return result == SLH_DONE;
}

struct Lengths {
    size_t public_key, secret_key, signature, n;
    explicit Lengths(slh_set set) { call([&] { return slh_lengths(set, &public_key, &secret_key, &signature, &n); }); }
    static View expect(size_t length, View given, uint32_t refusal = SLH_BAD_LENGTH) {
        const std::string more = std::to_string(length) + " bytes expected, " + std::to_string(given.size) + " given";
        if (given.size != length) fail(Error(refusal, ": " + more));
        return given;
    }
};

/* Tests a set by one known key and message, before it is used (slh_self_test). Throws 40 SelfTestFailed. */
inline void self_test(slh_set set) {
    if (!call(slh_self_test, set, Bytes(Lengths(set).signature))) fail(Error(SLH_SELF_TEST_FAILED));
}

/* Fills bytes with fresh random ones that are fit for keys, or throws. A system without getentropy needs another. */
using Fill = void (*)(uint8_t *bytes, size_t size);
inline void system_random(uint8_t *bytes, size_t size) {
#if __has_include(<sys/random.h>)
    if (getentropy(bytes, size) == 0) return;
#endif
    fail(std::runtime_error("7 RandomFailed"));
}

struct Options {
    View context = {};          /* at most 255 bytes */
    View randomizer = {};       /* n bytes, or none to have them drawn by fill */
    Fill fill = system_random;
    bool deterministic = false; /* takes no randomizer, which is more exposed to hardware faults */
    bool once = false;          /* one computation; else two are compared, and 38 Fault is thrown if they differ */
    bool twice = false;         /* deprecated, since two are the default; it prevails over once */
    bool verify = false;        /* throws 38 Fault if the signature is not valid, and erases it */
};

class PublicKey { /* PK.seed and PK.root: 2n bytes. The verify calls return false for a signature that is not valid. */
public:
    PublicKey(slh_set set, View bytes)
        : set_(set), bytes_(bytes.data, bytes.data + Lengths::expect(Lengths(set).public_key, bytes).size) {}
    const Bytes &bytes() const noexcept { return bytes_; }
    slh_set set() const noexcept { return set_; }
    [[nodiscard]] bool verify(View message, View signature, View context = {}) const {
        return call(slh_verify, set_, View(bytes_), message, context, signature);
    }
    [[nodiscard]] bool hash_verify(slh_function id, View message, View signature, View context = {}) const {
        return call(slh_hash_verify, set_, id, View(bytes_), message, context, signature);
    }
    [[nodiscard]] bool hash_verify_digest(slh_function id, View digest, View signature, View context = {}) const {
        return call(slh_hash_verify_digest, set_, id, View(bytes_), digest, context, signature);
    }
    bool operator==(const PublicKey &other) const { return set_ == other.set_ && bytes_ == other.bytes_; }
private:
    slh_set set_;
    Bytes bytes_;
};

struct Signed { /* An item of verify_many. The key and the bytes that are viewed have to last until that returns. */
    const PublicKey *key;
    View message, signature, context = {};
};
/* Whether each signature is valid, in order: in less time than one by one, by one call for each set. */
[[nodiscard]] inline std::vector<bool> verify_many(const std::vector<Signed> &items) {
    std::vector<bool> valid(items.size());
    for (uint32_t set = SLH_DSA_SHA2_128S; set <= SLH_DSA_SHA2_256F; ++set) {
        std::vector<size_t> places;
        std::vector<slh_signed> given;
        for (size_t at = 0; at < items.size(); ++at) {
            const auto &[key, msg, sig, ctx] = items[at];
            if (key->set() != static_cast<slh_set>(set)) continue;
            const Bytes &pk = key->bytes();
            given.push_back({pk.data(), pk.size(), msg.data, msg.size, ctx.data, ctx.size, sig.data, sig.size});
            places.push_back(at);
        }
        std::vector<uint32_t> verdicts(given.size(), SLH_INVALID);
        call([&] { return slh_verify_many(set, given.data(), given.size(), verdicts.data(), verdicts.size()); });
        for (size_t i = 0; i < places.size(); ++i) valid[places[i]] = verdicts[i] == SLH_DONE;
    }
    return valid;
}

class SecretKey { /* SK.seed, SK.prf, PK.seed and PK.root: 4n bytes, which are erased. No copies, no ==, no <<. */
public:
    static SecretKey generate(slh_set set, Fill fill = system_random) {
        const SecretKey seeds(set, 3 * Lengths(set).n);
        fill(seeds.bytes_->data(), seeds.bytes_->size());
        const auto seed = [&, n = Lengths(set).n](size_t at) { return View(seeds.bytes_->data() + at * n, n); };
        return keygen(set, seed(0), seed(1), seed(2));
    }
    static SecretKey keygen(slh_set set, View sk_seed, View sk_prf, View pk_seed) {
        SecretKey key(set, Lengths(set).secret_key);
        call(slh_keygen, set, sk_seed, sk_prf, pk_seed, *key.bytes_);
        if (!key.check()) fail(Error(SLH_FAULT)); /* Memory or the processor failed. */
        return key;
    }
    static SecretKey from_bytes(slh_set set, View bytes) { /* They stay the caller's, who erases them. */
        SecretKey key(set, Lengths::expect(Lengths(set).secret_key, bytes).size);
        key.bytes_->assign(bytes.data, bytes.data + bytes.size);
        return key;
    }
    View bytes() const {
        if (!bytes_) fail(std::logic_error("the SecretKey was moved"));
        return *bytes_;
    }
    PublicKey public_key() const { return {set_, View(bytes().data + bytes().size / 2, bytes().size / 2)}; }
    [[nodiscard]] bool check() const { return call(slh_check, set_, bytes()); }
    Bytes sign(View message, const Options &how = {}) const {
        return made(how, message, slh_sign, slh_sign_twice, slh_verify);
    }
    Bytes hash_sign(slh_function id, View message, const Options &how = {}) const {
        return made(how, message, slh_hash_sign, slh_hash_sign_twice, slh_hash_verify, id);
    }
    Bytes hash_sign_digest(slh_function id, View digest, const Options &how = {}) const {
        return made(how, digest, slh_hash_sign_digest, slh_hash_sign_digest_twice, slh_hash_verify_digest, id);
    }
private:
    struct Erase { void operator()(Bytes *it) const { slh_erase(it->data(), it->size()), delete it; } };
    slh_set set_;
    std::unique_ptr<Bytes, Erase> bytes_; /* Their length never changes, so no copy stays behind. */
    SecretKey(slh_set set, size_t size) : set_(set), bytes_(new Bytes(size)) {}
    template <class Once, class Twice, class Verify, class... Id>
    Bytes made(const Options &how, View message, Once once, Twice twice, Verify verify, Id... id) const {
        const Lengths lengths(set_);
        Bytes drawn(how.deterministic || how.randomizer.size != 0 ? 0 : lengths.n), pk = public_key().bytes();
        if (!drawn.empty()) how.fill(drawn.data(), drawn.size());
        const View random = drawn.empty() ? how.randomizer : drawn;
        Lengths::expect(how.deterministic ? 0 : lengths.n, random, SLH_BAD_RANDOMIZER_LENGTH);
        const bool is_once = how.once && !how.twice;
        Bytes sig(lengths.signature), scratch(is_once ? 0 : 2 * sig.size());
        if (is_once) call(once, set_, id..., bytes(), message, how.context, random, sig);
        else call(twice, set_, id..., bytes(), message, how.context, random, scratch, sig);
        if (!how.verify || call(verify, set_, id..., View(pk), message, how.context, View(sig))) return sig;
        slh_erase(sig.data(), sig.size());
        fail(Error(SLH_FAULT));
    }
};
} // namespace slh
