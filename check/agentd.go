// What check/agentd asks an agent by Go's golang.org/x/crypto/ssh/agent: keys and certificates are added, listed, signed with and
// removed, and the agent is locked. What is wrong ends it with status 1.
package main

import (
	"crypto/ecdsa"
	"crypto/ed25519"
	"crypto/elliptic"
	"crypto/rand"
	"crypto/rsa"
	"fmt"
	"net"
	"os"

	"golang.org/x/crypto/ssh"
	"golang.org/x/crypto/ssh/agent"
)

func check(err error, what string) {
	if err != nil {
		fmt.Println("WRONG", what, err)
		os.Exit(1)
	}
}

func lists(client agent.Agent, count int, what string) {
	keys, err := client.List()
	check(err, what)
	if len(keys) != count {
		check(fmt.Errorf("%d keys", len(keys)), what)
	}
}

func main() {
	connection, err := net.Dial("unix", os.Getenv("SSH_AUTH_SOCK"))
	check(err, "dial")
	client := agent.NewClient(connection)
	rsaKey, err := rsa.GenerateKey(rand.Reader, 2048)
	check(err, "rsa")
	ecKey, err := ecdsa.GenerateKey(elliptic.P384(), rand.Reader)
	check(err, "ecdsa")
	_, edKey, err := ed25519.GenerateKey(rand.Reader)
	check(err, "ed25519")
	for _, key := range []interface{}{rsaKey, ecKey, &edKey} {
		check(client.Add(agent.AddedKey{PrivateKey: key, Comment: "go"}), "add")
	}
	lists(client, 3, "list")
	signers, err := client.Signers()
	check(err, "signers")
	for _, signer := range signers {
		signature, err := signer.Sign(rand.Reader, []byte("message"))
		check(err, "sign")
		check(signer.PublicKey().Verify([]byte("message"), signature), "verify")
	}
	public, err := ssh.NewPublicKey(rsaKey.Public())
	check(err, "public")
	for flags, format := range map[agent.SignatureFlags]string{0: "ssh-rsa", 2: "rsa-sha2-256", 4: "rsa-sha2-512"} {
		signature, err := client.SignWithFlags(public, []byte("message"), flags)
		check(err, format)
		if signature.Format != format {
			check(fmt.Errorf("%s", signature.Format), format)
		}
		check(public.Verify([]byte("message"), signature), format)
	}
	check(client.Add(agent.AddedKey{PrivateKey: ecKey, Comment: "again", LifetimeSecs: 600, ConfirmBeforeUse: false}), "lifetime")
	certificate := &ssh.Certificate{Key: public, CertType: ssh.UserCert, KeyId: "id", ValidBefore: ssh.CertTimeInfinity}
	authority, err := ssh.NewSignerFromKey(edKey)
	check(err, "authority")
	check(certificate.SignCert(rand.Reader, authority), "certify")
	check(client.Add(agent.AddedKey{PrivateKey: rsaKey, Certificate: certificate, Comment: "certificate"}), "add certificate")
	lists(client, 4, "list with a certificate")
	signature, err := client.SignWithFlags(certificate, []byte("message"), 4)
	check(err, "sign by a certificate")
	check(public.Verify([]byte("message"), signature), "verify of a certificate")
	check(client.Lock([]byte("p")), "lock")
	lists(client, 0, "list, locked")
	if client.Unlock([]byte("q")) == nil {
		check(fmt.Errorf("unlocked"), "another passphrase")
	}
	check(client.Unlock([]byte("p")), "unlock")
	check(client.Remove(public), "remove")
	check(client.Remove(certificate), "remove the certificate")
	lists(client, 2, "list after removal")
	check(client.RemoveAll(), "remove all")
	lists(client, 0, "list at the end")
}
