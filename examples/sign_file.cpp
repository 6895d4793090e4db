// Makes a key, signs a file and verifies the signature, and then writes it into FILE.sig and the public key, as a key
// file of slh, into FILE.pub: sign_file FILE
// So it verifies by: slh verify --key FILE.pub --message FILE --signature FILE.sig
// It takes the types of slh.hpp, and is C++17.
#include <slh.hpp>

#include <cstdlib>
#include <fstream>
#include <iomanip>
#include <iostream>
#include <iterator>
#include <sstream>

static slh::Bytes read_file(const std::string &path) try {
    std::ifstream file(path, std::ios::binary);
    if (!file) throw std::runtime_error("there is none");
    return {std::istreambuf_iterator<char>(file), std::istreambuf_iterator<char>()};
} catch (const std::exception &) {
    std::cerr << path << " cannot be read\n";
    std::exit(2);
}

static void write_file(const std::string &path, const std::string &text) {
    std::ofstream out(path, std::ios::binary);
    if (!(out << text << std::flush)) throw std::runtime_error(path + " cannot be written");
}

struct Signed {
    slh::PublicKey pk;
    slh::Bytes sig;
};

static Signed sign(const slh::Bytes &msg) {
    const auto sk = slh::SecretKey::generate(SLH_DSA_SHA2_128F); // It is erased at the end, also by exceptions.
    slh::Options options;
    options.verify = true; // As the two computations, it finds faults of memory and the processor.
    return {sk.public_key(), sk.sign(msg, options)};
}

static std::string key_file(const slh::PublicKey &pk) {
    std::ostringstream text;
    text << "slh-dsa-public 2\nSLH-DSA-SHA2-128f\n" << std::hex << std::setfill('0');
    for (const unsigned byte : pk.bytes()) text << std::setw(2) << byte;
    return text.str() + "\n";
}

int main(int count, char **words) try {
    if (count != 2) return std::cerr << "usage: sign_file FILE\n", 2;
    const std::string path = words[1];
    const Signed made = sign(read_file(path));
    write_file(path + ".sig", std::string(made.sig.begin(), made.sig.end()));
    write_file(path + ".pub", key_file(made.pk));
    std::cout << "valid\n";
    return 0;
} catch (const std::exception &fault) {
    std::cerr << fault.what() << '\n';
    return 1;
}
