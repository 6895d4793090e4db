// Tests that a secret key is not printed, serialised or copied, by each way of printing and each holder of a key.

package slh_test

import (
	"bytes"
	"encoding/asn1"
	"encoding/binary"
	"encoding/gob"
	"encoding/hex"
	"encoding/json"
	"encoding/xml"
	"fmt"
	html "html/template"
	"io"
	"log"
	"os"
	"os/exec"
	"reflect"
	"strings"
	"testing"
	text "text/template"
	"unsafe"

	"pipitscreen.example/slh"
)

// Structs that hold a key, which is a value or a pointer.
type (
	exported[K any]   struct{ Key K }
	unexported[K any] struct {
		name string
		key  K
	}
	nested[K any]     struct{ inner unexported[K] }
	below[K any]      struct{ inner *unexported[K] }
	listed[K any]     struct{ keys []K }
	arrayed[K any]    struct{ keys [1]K }
	mapped[K any]     struct{ keys map[string]K }
	boxed             struct{ key any }
	enclosed[K any]   struct{ key func() K }
	piped[K any]      struct{ keys chan K }
	failed[K any]     struct{ key K }
	keyed             struct{ keys map[slh.SecretKey]int }
	keyedPointer      struct{ keys map[*slh.SecretKey]int }
	embedded          struct{ slh.SecretKey }
	embeddedPointer   struct{ *slh.SecretKey }
	embeddedPublic    struct{ slh.PublicKey }
	embeddedPublicPtr struct{ *slh.PublicKey }
)

// Error prints the key in a struct, as errors do.
func (it failed[K]) Error() string {
	var fields any = unexported[K]{"a", it.key}
	return fmt.Sprintf("%v %+v %#v %s %q %x %d", fields, fields, fields, fields, fields, fields, fields)
}

// holdersOf returns all that holds a key by value or by pointer. The key comes by its address: go vet reports copies.
func holdersOf[K any](kind string, at *K) map[string]any {
	key, channel := *at, make(chan K, 1)
	channel <- key
	holder := unexported[K]{"a", key}
	all := map[string]any{
		"itself": key, "its address": at, "exported field": exported[K]{key}, "unexported field": holder,
		"pointer to a struct": &holder, "nested": nested[K]{holder}, "pointer in a struct": below[K]{&holder},
		"slice": []K{key}, "slice in a struct": listed[K]{[]K{key}}, "array": arrayed[K]{[1]K{key}},
		"map": map[string]K{"a": key}, "map in a struct": mapped[K]{map[string]K{"a": key}},
		"map of structs": map[string]unexported[K]{"a": holder}, "slice of structs": []unexported[K]{holder},
		"interface": boxed{key}, "interface of a pointer": boxed{at}, "closure": enclosed[K]{func() K { return key }},
		"channel": piped[K]{channel}, "error": failed[K]{key}, "wrapped": fmt.Errorf("wrapped: %w", failed[K]{key}),
		"exported pointer to a struct": exported[*unexported[K]]{&holder},
	}
	named := map[string]any{}
	for name, it := range all {
		named[kind+", "+name] = it
	}
	return named
}

// secretHolders returns all that holds a secret key.
func secretHolders(secret *slh.SecretKey) map[string]any {
	all := holdersOf("value", secret)
	for name, it := range holdersOf("pointer", &secret) {
		all[name] = it
	}
	keys := reflect.MakeMap(reflect.TypeOf(keyed{}.keys))
	keys.SetMapIndex(reflect.ValueOf(secret).Elem(), reflect.ValueOf(1))
	all["map key"] = keys.Interface()
	all["map key in a struct"] = keyed{keys.Interface().(map[slh.SecretKey]int)}
	all["pointer as a map key"] = keyedPointer{map[*slh.SecretKey]int{secret: 1}}
	var holder embedded
	reflect.ValueOf(&holder.SecretKey).Elem().Set(reflect.ValueOf(secret).Elem())
	all["embedded"] = reflect.ValueOf(&holder).Elem().Interface()
	all["pointer to embedded"] = &holder
	all["embedded pointer"] = embeddedPointer{secret}
	return all
}

// publicHolders returns all that holds a public key.
func publicHolders(public *slh.PublicKey) map[string]any {
	all := holdersOf("value", public)
	for name, it := range holdersOf("pointer", &public) {
		all[name] = it
	}
	all["embedded"] = embeddedPublic{*public}
	all["embedded pointer"] = embeddedPublicPtr{public}
	return all
}

// writers are the ways of writing something, by name. Each returns its output and the text of its error.
var writers = map[string]func(it any) string{
	"Sprint":   func(it any) string { return fmt.Sprint(it, it) },
	"Sprintln": func(it any) string { return fmt.Sprintln(it) },
	"Errorf":   func(it any) string { return fmt.Errorf(wrapping, it, it).Error() },
	"json":     func(it any) string { return encoded(json.Marshal(it)) },
	"indented": func(it any) string { return encoded(json.MarshalIndent(it, "", " ")) },
	"xml":      func(it any) string { return encoded(xml.Marshal(it)) },
	"asn1":     func(it any) string { return encoded(asn1.Marshal(it)) },
	"gob": func(it any) string {
		return streamed(func(to io.Writer) error { return gob.NewEncoder(to).Encode(it) })
	},
	"binary": func(it any) string {
		return streamed(func(to io.Writer) error { return binary.Write(to, binary.BigEndian, it) })
	},
	"log": func(it any) string {
		return streamed(func(to io.Writer) error {
			logger := log.New(to, "", log.LstdFlags)
			logger.Print(it)
			logger.Println(it)
			logger.Printf("starting %s %v", it, it)
			return nil
		})
	},
	"log.Panic": func(it any) (said string) {
		defer func() { said = fmt.Sprint(recover()) }()
		log.New(io.Discard, "", 0).Panic(it)
		return ""
	},
	"text/template": func(it any) string {
		return streamed(func(to io.Writer) error {
			return text.Must(text.New("").Parse(templateText)).Execute(to, it)
		})
	},
	"html/template": func(it any) string {
		return streamed(func(to io.Writer) error {
			return html.Must(html.New("").Parse(templateText+templateHTML)).Execute(to, it)
		})
	},
	"reflection": func(it any) string {
		var found []byte
		walk(reflect.ValueOf(it), map[unsafe.Pointer]bool{}, &found)
		return string(found)
	},
}

var wrapping = "%v: %w" // no constant: go vet knows that not all are errors

const (
	templateText = `{{.}} {{printf "%v %+v %#v %s %q %x %d %c" . . . . . . . .}} {{print .}} {{println .}}`
	templateHTML = `<a href="/{{.}}" title="{{.}}" onclick="f({{.}})">{{.}}</a><script>var it = {{.}}</script>`
)

// encoded returns an output and the text of an error.
func encoded(output []byte, err error) string {
	return string(output) + fmt.Sprint(err)
}

// streamed returns the output of a call and the text of its error, or the value that it panics with.
func streamed(write func(to io.Writer) error) (output string) {
	var to bytes.Buffer
	defer func() {
		if found := recover(); found != nil {
			output = to.String() + fmt.Sprint(found)
		}
	}()
	err := write(&to)
	return encoded(to.Bytes(), err)
}

// walk collects all bytes and texts that reflection reads, in fields that are not exported, too, as printers of other
// modules do.
func walk(it reflect.Value, seen map[unsafe.Pointer]bool, found *[]byte) {
	switch it.Kind() {
	case reflect.Pointer:
		if !it.IsNil() && !seen[it.UnsafePointer()] {
			seen[it.UnsafePointer()] = true
			walk(it.Elem(), seen, found)
		}
	case reflect.Interface:
		walk(it.Elem(), seen, found)
	case reflect.Struct:
		for at := 0; at < it.NumField(); at++ {
			walk(it.Field(at), seen, found)
		}
	case reflect.Slice, reflect.Array:
		for at := 0; at < it.Len(); at++ {
			walk(it.Index(at), seen, found)
		}
	case reflect.Map:
		for _, key := range it.MapKeys() {
			walk(key, seen, found)
			walk(it.MapIndex(key), seen, found)
		}
	case reflect.Uint8:
		*found = append(*found, byte(it.Uint()))
	case reflect.String:
		*found = append(*found, it.String()...)
	}
}

func init() {
	for _, verb := range strings.Split("v s q x X d c U o O b t e E f g G p T w z", " ") {
		for _, flags := range []string{"", "+", "#", "# ", "20"} {
			format := "%" + flags + verb
			writers[format] = func(it any) string { return fmt.Sprintf(format, it) }
		}
	}
}

// expectNothing fails if an output has 8 consecutive bytes of SK.seed or SK.prf, the first 32 bytes of a key of 128f.
func expectNothing(t *testing.T, way, holder, output string, key []byte) {
	t.Helper()
	if encoding := leakIn(output, key[:16], key[16:32]); encoding != "" {
		t.Errorf("%s of %s: %s", way, holder, encoding)
	}
}

const fast = slh.Set(2) // 128f

func generate(t *testing.T) *slh.SecretKey {
	t.Helper()
	secret, err := slh.Generate(nil, fast)
	if err != nil {
		t.Fatal(err)
	}
	return secret
}

// mistaken returns the public key of 256f that a secret key of 128f is taken for, which has as many bytes.
func mistaken(t *testing.T, key []byte) *slh.PublicKey {
	t.Helper()
	public, err := slh.NewPublicKey(slh.Set(6), key)
	if err != nil {
		t.Fatal(err)
	}
	return public
}

// TestNothingWritesASecretKey writes each holder of a secret key in each way.
func TestNothingWritesASecretKey(t *testing.T) {
	secret := generate(t)
	for holder, it := range secretHolders(secret) {
		for way, write := range writers {
			expectNothing(t, way, holder, write(it), secret.Bytes())
		}
	}
}

// TestNothingWritesAMistakenKey does so for a secret key that was taken for a public one.
func TestNothingWritesAMistakenKey(t *testing.T) {
	key := generate(t).Bytes()
	for holder, it := range publicHolders(mistaken(t, key)) {
		for way, write := range writers {
			expectNothing(t, way, holder, write(it), key)
		}
	}
}

// TestNoPanicWritesAKey has a process of its own panic with each holder.
func TestNoPanicWritesAKey(t *testing.T) {
	secret := generate(t)
	for holder := range secretHolders(secret) {
		expectNothing(t, "panic", "secret, "+holder, panicked(t, "secret, "+holder, secret.Bytes()), secret.Bytes())
	}
	for holder := range publicHolders(secret.PublicKey()) {
		expectNothing(t, "panic", "public, "+holder, panicked(t, "public, "+holder, secret.Bytes()), secret.Bytes())
	}
}

// panicked returns the output of a process that panics with a holder of a key.
func panicked(t *testing.T, holder string, key []byte) string {
	t.Helper()
	command := exec.Command(os.Args[0], "-test.run=^TestPanics$")
	command.Env = append(os.Environ(), "SLH_PANICS_WITH="+holder, "GOTRACEBACK=all")
	command.Stdin = strings.NewReader(hex.EncodeToString(key))
	output, err := command.CombinedOutput()
	if err == nil || !strings.Contains(string(output), "panic: ") || !strings.Contains(string(output), "goroutine ") {
		t.Fatalf("%s: no panic, %v: %s", holder, err, output)
	}
	return string(output)
}

// TestPanics is the process of TestNoPanicWritesAKey.
func TestPanics(t *testing.T) {
	named := os.Getenv("SLH_PANICS_WITH")
	if named == "" {
		return
	}
	digits, err := io.ReadAll(os.Stdin)
	if err != nil {
		t.Fatal(err)
	}
	key, err := hex.DecodeString(string(digits))
	if err != nil {
		t.Fatal(err)
	}
	secret, err := slh.NewSecretKey(fast, key)
	if err != nil {
		t.Fatal(err)
	}
	for holder, it := range secretHolders(secret) {
		if "secret, "+holder == named {
			panic(it)
		}
	}
	for holder, it := range publicHolders(mistaken(t, key)) {
		if "public, "+holder == named {
			panic(it)
		}
	}
}
