"""Go's x/crypto/ssh reads the same keys in the same texts (Debian's golang-go and golang-golang-x-crypto-dev)."""
from __future__ import annotations

import os
import subprocess
from pathlib import Path
from typing import List

from cryptography.hazmat.primitives.serialization import load_der_private_key
from making import CIPHERS, sealing_of
from picky import PrivateKey, Sealing, Target
from tools import Made, numbers

# It prints PKCS #8, in hex, of the key in each file, under the passphrase in the file beside it, and "refused" of others.
PROGRAM = """
package main

import (
	"crypto/ed25519"
	"crypto/x509"
	"fmt"
	"os"

	"golang.org/x/crypto/ssh"
)

func read(name string) (interface{}, error) {
	text, err := os.ReadFile(name)
	if err != nil {
		return nil, err
	}
	passphrase, err := os.ReadFile(name + ".pass")
	if err != nil {
		return ssh.ParseRawPrivateKey(text)
	}
	return ssh.ParseRawPrivateKeyWithPassphrase(text, passphrase)
}

func main() {
	for _, name := range os.Args[1:] {
		key, err := read(name)
		if pointer, ok := key.(*ed25519.PrivateKey); ok {
			key = *pointer
		}
		der, hidden := x509.MarshalPKCS8PrivateKey(key)
		if err != nil || hidden != nil {
			fmt.Println("refused")
		} else {
			fmt.Printf("%x\\n", der)
		}
	}
}
"""


def test_go_reads_the_same_keys(keys_of_ssh_keygen: List[Made], tmp_path: Path) -> None:
    (tmp_path / "main.go").write_text(PROGRAM)
    places = {"GO111MODULE": "off", "GOPATH": "/usr/share/gocode", "GOCACHE": str(tmp_path / "go")}
    command = ["go", "build", "-o", "read", "main.go"]
    subprocess.run(command, cwd=tmp_path, env={**os.environ, **places}, check=True, timeout=300)
    wanted = {}
    for number, made in enumerate(keys_of_ssh_keygen):
        key = PrivateKey.read(made.text, made.passphrase)
        written = bytes(key.write(Target.OPENSSH, "secret", sealing=Sealing(rounds=1)))
        texts = [(made.open_text, None), (written, b"secret")]
        # It has not all ciphers.
        if sealing_of(int(made.name.split()[-1]))[0] in CIPHERS[2:]:
            texts.append((made.text, made.passphrase.encode()))
        for place, (text, passphrase) in enumerate(texts):
            path = tmp_path / f"{number}.{place}"
            path.write_bytes(text)
            if passphrase is not None:
                Path(f"{path}.pass").write_bytes(passphrase)
            wanted[str(path)] = numbers(key.key())
    ran = subprocess.run(
        [tmp_path / "read", *wanted], capture_output=True, check=True, timeout=300, text=True
    )
    read = ran.stdout.splitlines()
    for (name, der), theirs in zip(wanted.items(), read):
        assert theirs != "refused", name
        assert numbers(load_der_private_key(bytes.fromhex(theirs), None)) == der, name
    assert len(read) == len(wanted) >= 500
