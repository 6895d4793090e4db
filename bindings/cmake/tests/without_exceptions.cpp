// Uses c/include/slh.hpp without exceptions: without_exceptions [ERROR]. It signs and verifies, and prints the verdict;
// or it makes the named error, after which it prints no more. tests/test_slh_hpp.py compiles and runs it.
#include <slh.hpp>

#include <cstdlib>
#include <iostream>

namespace {

constexpr slh_set set = SLH_DSA_SHA2_128F;

slh::Options with_long_context() {
    static const slh::Bytes some(256);
    slh::Options options;
    options.context = some;
    return options;
}

// A key whose root is not that of its seeds, so that no signature is valid.
slh::SecretKey wrong_key() {
    const auto right = slh::SecretKey::generate(set);
    slh::Bytes bytes(right.bytes().data, right.bytes().data + right.bytes().size);
    bytes.back() ^= 1;
    return slh::SecretKey::from_bytes(set, bytes);
}

void make_error(const std::string &error) {
    auto sk = slh::SecretKey::generate(set);
    const slh::Bytes some(33);
    const char *const none = nullptr;
    slh::Options verified;
    verified.verify = true;
    if (error == "context") (void)sk.sign("letter", with_long_context());
    if (error == "key") slh::PublicKey(set, some);
    if (error == "set") slh::SecretKey::generate(static_cast<slh_set>(7));
    if (error == "fault") (void)wrong_key().sign("letter", verified);
    if (error == "zero") (void)sk.sign("let\0ter");
    if (error == "null") (void)sk.sign(none);
    if (error == "moved") { const auto other = std::move(sk); (void)sk.sign("letter"); } // NOLINT: it was moved from
}

} // namespace

int main(int count, char **words) {
    if (count > 1) {
        make_error(words[1]);
        std::cout << "no error\n";
        return EXIT_FAILURE;
    }
    const auto sk = slh::SecretKey::generate(set);
    const bool is_valid = sk.public_key().verify("letter", sk.sign("letter"));
    std::cout << (is_valid && !sk.public_key().verify("letter", "short") ? "valid\n" : "invalid\n");
}
