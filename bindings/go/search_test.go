// The search for a secret in printed text, in each encoding, for the tests of printing.

package slh_test

import (
	"encoding/base64"
	"encoding/hex"
	"encoding/json"
	"encoding/xml"
	"fmt"
	"html"
	"regexp"
	"strconv"
	"strings"
	"testing"
)

// window is how many consecutive bytes of a secret are a leak.
const window = 8

// leakIn returns the encoding by which an output has 8 consecutive bytes of a secret, and else the empty text.
func leakIn(output string, secrets ...[]byte) string {
	all, texts := windows(secrets), []string{output}
	if text := html.UnescapeString(output); text != output {
		texts = append(texts, text)
	}
	for _, text := range texts {
		for encoding, bytes := range decodings(text) {
			if hasAny(bytes, all) {
				return encoding
			}
		}
		for _, wanted := range all {
			if hasBase64(text, wanted) {
				return "base64"
			}
		}
	}
	return ""
}

// hasAny reports whether a text has any of these bytes.
func hasAny(text string, all [][]byte) bool {
	for _, wanted := range all {
		if strings.Contains(text, string(wanted)) {
			return true
		}
	}
	return false
}

// windows returns each 8 consecutive bytes of each secret.
func windows(secrets [][]byte) (all [][]byte) {
	for _, secret := range secrets {
		for first := 0; first+window <= len(secret); first++ {
			all = append(all, secret[first:first+window])
		}
	}
	return all
}

// decodings returns the bytes that an output has by each encoding, one after the other.
func decodings(output string) map[string]string {
	found := map[string]string{"raw": output, "escaped": unescaped(output)}
	runes := []rune(output)
	found["characters"] = characters(runes, 0, 1)
	found["even characters"] = characters(runes, 0, 2)
	found["odd characters"] = characters(runes, 1, 2)
	digits := betweenDigits.ReplaceAllString(output, "")
	found["hexadecimal"] = pairs(digits, 0) + pairs(digits, 1)
	for _, base := range []int{2, 8, 10, 16} {
		found[fmt.Sprint("numbers of base ", base)] = numbers(output, base)
	}
	return found
}

var (
	badVerb       = regexp.MustCompile(`%![a-zA-Z]\([\w.*]*=|%![a-zA-Z]\(`)
	prefixes      = regexp.MustCompile(`0[xXobB]|U\+|\\x|\\u00`)
	betweenDigits = regexp.MustCompile(`0[xX]|U\+00|\\x|\\u00|[ ,:;]`)
	hexRun        = regexp.MustCompile(`[0-9a-fA-F]{16,}`)
	number        = regexp.MustCompile(`[0-9a-fA-F]+`)
)

// characters returns each rune below 256 as a byte, from the first one on, by steps.
func characters(runes []rune, first, step int) string {
	var found []byte
	for at := first; at < len(runes); at += step {
		if runes[at] < 256 {
			found = append(found, byte(runes[at]))
		}
	}
	return string(found)
}

// unescaped returns a text with the bytes of Go's and JSON's escapes.
func unescaped(text string) string {
	var found []byte
	for text != "" {
		if value, _, rest, err := strconv.UnquoteChar(text, '"'); err == nil && text[0] == '\\' {
			if text[1] == 'x' || value < 128 {
				found = append(found, byte(value))
			} else {
				found = append(found, string(value)...)
			}
			text = rest
		} else {
			found, text = append(found, text[0]), text[1:]
		}
	}
	return string(found)
}

// pairs returns the bytes of long runs of hexadecimal digits, from a digit on.
func pairs(text string, first int) string {
	var found []byte
	for _, run := range hexRun.FindAllString(text, -1) {
		run = run[first:]
		bytes, _ := hex.DecodeString(run[:len(run)/2*2])
		found = append(found, bytes...)
	}
	return string(found)
}

// numbers returns the numbers below 256 of a base.
func numbers(text string, base int) string {
	var found []byte
	text = prefixes.ReplaceAllString(badVerb.ReplaceAllString(text, " "), " ")
	for _, digits := range number.FindAllString(text, -1) {
		if value, err := strconv.ParseUint(digits, base, 8); err == nil {
			found = append(found, byte(value))
		}
	}
	return string(found)
}

// hasBase64 reports whether a text has these bytes at any place of base64. The first and the last characters also have
// bits of other bytes, and are left out.
func hasBase64(text string, wanted []byte) bool {
	for before := 0; before < 3; before++ {
		padded := append(make([]byte, before), wanted...)
		for _, encoding := range []*base64.Encoding{base64.RawStdEncoding, base64.RawURLEncoding} {
			coded := encoding.EncodeToString(padded)
			if strings.Contains(text, coded[(8*before+5)/6:8*len(padded)/6]) {
				return true
			}
		}
	}
	return false
}

// TestTheSearchFinds has each way of writing bytes found, so that the tests of printing can fail.
func TestTheSearchFinds(t *testing.T) {
	type holder struct{ key []byte }
	type exported struct{ Key []byte }
	secret := []byte("\x00\x07\\\"A\xe9\xff\n\x80z0\xc3\xa9'<&")
	outputs := map[string]string{"hex": hex.EncodeToString(secret), "cut": fmt.Sprintf("%x", secret[5:13])}
	for _, verb := range strings.Split("v,+v,#v,s,q,+q,x,X,# x,% X,d,c,U,o,O,b,e,t", ",") {
		outputs[verb] = fmt.Sprintf("%"+verb, holder{secret})
	}
	for name, encode := range map[string]func(any) ([]byte, error){"json": json.Marshal, "xml": xml.Marshal} {
		text, err := encode(exported{secret[:12]})
		if name == "xml" {
			text, err = encode(exported{[]byte("ABCDEFGHIJKLMNOP")})
		}
		if err != nil {
			t.Fatal(err)
		}
		outputs[name] = string(text)
	}
	for name, output := range outputs {
		if leakIn(output, secret, []byte("ABCDEFGHIJKLMNOP")) == "" {
			t.Errorf("%s is not found: %s", name, output)
		}
	}
	if encoding := leakIn(fmt.Sprintf("%v %x", secret[:7], secret[9:16]), secret); encoding != "" {
		t.Error("7 bytes are found by", encoding)
	}
}
