// Answers a script of modes and tags with Crypto++ 8.7.0.
//
// Usage: modes_peer < SCRIPT     (tools/modes_table.py compiles and runs it)
//
// Prints the library's version, then an answer for each line of the script
// that is no comment. Stops at the first line that it cannot answer.
//
// The modes and the tag are the library's own. Two things are composed here:
// the triple, from the library's block ciphers, and the next block, which the
// library does not show.
#include <cryptopp/blowfish.h>
#include <cryptopp/cmac.h>
#include <cryptopp/modes.h>
#include <cryptopp/tea.h>

#include <iostream>
#include <map>
#include <memory>
#include <sstream>
#include <stdexcept>
#include <string>

using namespace CryptoPP;

const size_t BLOCK = 8;

// The library wants a key length of every cipher and tag; a triple is made of
// ciphers that have their keys, and ignores the key that it is given.
typedef FixedKeyLength<1> Ignored;

// Three block ciphers, one after another.
class Chain : public SimpleKeyingInterfaceImpl<BlockCipher, Ignored> {
public:
    Chain(BlockCipher &a, BlockCipher &b, BlockCipher &c, bool forward)
        : a(a), b(b), c(c), forward(forward) {}

    void ProcessAndXorBlock(const byte *in, const byte *mask, byte *out) const {
        byte block[BLOCK];
        a.ProcessBlock(in, block);
        b.ProcessBlock(block);
        c.ProcessAndXorBlock(block, mask, out);
    }
    unsigned int BlockSize() const { return BLOCK; }
    bool IsForwardTransformation() const { return forward; }
    void UncheckedSetKey(const byte *, unsigned int, const NameValuePairs &) {}

private:
    BlockCipher &a, &b, &c;
    bool forward;
};

// The library's CMAC over a cipher made elsewhere.
class ChainTag : public SimpleKeyingInterfaceImpl<CMAC_Base, Ignored> {
public:
    explicit ChainTag(BlockCipher &cipher) : cipher(cipher) {
        const byte none[1] = {0};
        SetKey(none, sizeof none);
    }

private:
    BlockCipher &AccessCipher() { return cipher; }
    BlockCipher &cipher;
};

struct Cipher {
    virtual ~Cipher() {}
    virtual void load(const std::string &key) = 0;
    virtual BlockCipher &forward() = 0;
    virtual BlockCipher &back() = 0;
    virtual MessageAuthenticationCode &tag() = 0;
};

template <class T> struct Single : Cipher {
    void load(const std::string &key) {
        const byte *bytes = reinterpret_cast<const byte *>(key.data());
        e.SetKey(bytes, key.size());
        d.SetKey(bytes, key.size());
        t.SetKey(bytes, key.size());
    }
    BlockCipher &forward() { return e; }
    BlockCipher &back() { return d; }
    MessageAuthenticationCode &tag() { return t; }

    typename T::Encryption e;
    typename T::Decryption d;
    CMAC<T> t;
};

// Enciphers under the first, deciphers under the second, enciphers under the third.
struct Triple : Cipher {
    Triple(Cipher &a, Cipher &b, Cipher &c)
        : e(a.forward(), b.back(), c.forward(), true),
          d(c.back(), b.forward(), a.back(), false), t(e) {}

    void load(const std::string &) { throw std::runtime_error("key of a triple"); }
    BlockCipher &forward() { return e; }
    BlockCipher &back() { return d; }
    MessageAuthenticationCode &tag() { return t; }

    Chain e, d;
    ChainTag t;
};

std::string block(const BlockCipher &cipher, const std::string &in) {
    byte out[BLOCK];
    cipher.ProcessBlock(reinterpret_cast<const byte *>(in.data()), out);
    return std::string(out, out + BLOCK);
}

std::string process(StreamTransformation &mode, const std::string &text) {
    std::string out(text.size(), '\0');
    mode.ProcessData(reinterpret_cast<byte *>(&out[0]),
                     reinterpret_cast<const byte *>(text.data()), text.size());
    return out;
}

// A mode without start.
template <class Mode> std::string run(BlockCipher &cipher, const std::string &text) {
    Mode mode(cipher);
    return process(mode, text);
}

template <class Mode>
std::string run(BlockCipher &cipher, const std::string &start, const std::string &text) {
    // segments of CFB are whole blocks unless another length is given
    Mode mode(cipher, reinterpret_cast<const byte *>(start.data()));
    return process(mode, text);
}

std::string apply(Cipher &c, const std::string &mode, bool enciphers,
                  const std::string &start, const std::string &text) {
    if (mode == "ECB")
        return enciphers ? run<ECB_Mode_ExternalCipher::Encryption>(c.forward(), text)
                         : run<ECB_Mode_ExternalCipher::Decryption>(c.back(), text);
    if (mode == "CBC")
        return enciphers ? run<CBC_Mode_ExternalCipher::Encryption>(c.forward(), start, text)
                         : run<CBC_Mode_ExternalCipher::Decryption>(c.back(), start, text);
    // these two never run the cipher backwards
    if (mode == "CFB")
        return enciphers ? run<CFB_Mode_ExternalCipher::Encryption>(c.forward(), start, text)
                         : run<CFB_Mode_ExternalCipher::Decryption>(c.forward(), start, text);
    if (mode == "OFB")
        return enciphers ? run<OFB_Mode_ExternalCipher::Encryption>(c.forward(), start, text)
                         : run<OFB_Mode_ExternalCipher::Decryption>(c.forward(), start, text);
    throw std::runtime_error("mode");
}

// The next block, from what the mode gives for a block of zeros after the
// text: that is E(next), or next xor D(0) when CBC deciphers.
std::string next(Cipher &c, const std::string &mode, bool enciphers,
                 const std::string &start, const std::string &following) {
    if (mode == "ECB")
        return start;
    if (mode != "CBC" || enciphers)
        return block(c.back(), following);
    std::string mask = block(c.back(), std::string(BLOCK, '\0'));
    for (size_t i = 0; i < BLOCK; i++)
        mask[i] ^= following[i];
    return mask;
}

std::string bytes(const std::string &digits) {
    std::string out;
    if (digits == "-")
        return out;
    if (digits.empty() || digits.size() % 2 ||
        digits.find_first_not_of("0123456789ABCDEF") != std::string::npos)
        throw std::runtime_error("digits");
    for (size_t i = 0; i < digits.size(); i += 2)
        out += static_cast<char>(std::stoi(digits.substr(i, 2), nullptr, 16));
    return out;
}

std::string digits(const std::string &bytes) {
    std::string out;
    for (unsigned char b : bytes) {
        out += "0123456789ABCDEF"[b >> 4];
        out += "0123456789ABCDEF"[b & 15];
    }
    return out.empty() ? "-" : out;
}

std::map<std::string, std::unique_ptr<Cipher>> ciphers;

Cipher &named(const std::string &name) { return *ciphers.at(name); }

std::string answer(const std::string &line) {
    std::istringstream words(line);
    std::string call, name, a, b, c, d;
    words >> call >> name >> a >> b >> c >> d;
    if (call == "cipher") {
        std::unique_ptr<Cipher> made;
        if (a == "blowfish")
            made.reset(new Single<Blowfish>);
        else if (a == "xtea")
            made.reset(new Single<XTEA>);
        else if (a == "triple")
            made.reset(new Triple(named(b), named(c), named(d)));
        else
            throw std::runtime_error("kind");
        if (!ciphers.emplace(name, std::move(made)).second)
            throw std::runtime_error("name");
        return "";
    }
    if (call == "load") {
        named(name).load(bytes(a));
        return "";
    }
    if (call == "encipher" || call == "decipher") {
        Cipher &cipher = named(name);
        bool enciphers = call == "encipher";
        std::string start = bytes(b), text = bytes(c);
        if (start.size() != BLOCK || text.size() % BLOCK)
            throw std::runtime_error("length");
        std::string out = apply(cipher, a, enciphers, start, text + std::string(BLOCK, '\0'));
        std::string following = out.substr(text.size());
        return " " + digits(next(cipher, a, enciphers, start, following)) + " " +
               digits(out.substr(0, text.size()));
    }
    if (call == "tag") {
        std::string text = bytes(a);
        MessageAuthenticationCode &tag = named(name).tag();
        std::string out(tag.DigestSize(), '\0');
        tag.CalculateDigest(reinterpret_cast<byte *>(&out[0]),
                            reinterpret_cast<const byte *>(text.data()), text.size());
        return " " + digits(out);
    }
    throw std::runtime_error("call");
}

int main() {
    // the library that runs, not only the headers
    std::cout << LibraryVersion() << "\n";
    std::string line;
    for (size_t k = 1; std::getline(std::cin, line); k++) {
        if (line[0] == '#')
            continue;
        try {
            std::cout << k << ": accepted" << answer(line) << "\n";
        } catch (const std::exception &e) {
            std::cerr << "modes_peer: line " << k << ": " << e.what() << "\n";
            return 1;
        }
    }
    return 0;
}
