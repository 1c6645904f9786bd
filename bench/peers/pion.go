// pion.go: the client of pion/turn, over a connection of this program's own that makes no system call, and messages of
// pion/stun. It reads and answers the lines of rows.c. Its arguments are the signed response and the whole one, in hex
// (samples.py). What a client receives it stores, and ReadFrom copies; both are timed.
package main

import (
	"bufio"
	"bytes"
	"encoding/binary"
	"encoding/hex"
	"fmt"
	"io"
	"net"
	"os"
	"time"

	"github.com/pion/logging"
	"github.com/pion/stun"
	"github.com/pion/turn/v2"
)

const (
	heldMost      = 1000
	payloadSize   = 1200
	frameHeader   = 4
	channelPort   = 9000
	otherPort     = 9001
	leastChannel  = 0x4000
	firstPeer     = 0x0a010000
	relayedPort   = 50000
	mappedPort    = 1000
	seconds       = 600
	warm          = 10
	numberSize    = 4
	transactionAt = 8
	indicationBit = 0x10 // of a type, in its second byte
	macKey        = "0123456789abcdef"
	user          = "user"
	password      = "pass"
	realm         = "realm"
	serverAddress = "10.0.0.2:3478"
	binding       = 2 * time.Second
	pause         = time.Millisecond
	settling      = 100 * time.Millisecond
)

var (
	payload             [payloadSize]byte
	relayedIP, mappedIP = net.IPv4(203, 0, 113, 5), net.IPv4(192, 168, 0, 1)
	responseSigned      []byte
	responseWhole       []byte
	clients             = map[int]*holder{}
	current             *holder
	datagram            []byte
	received            [2 * payloadSize]byte
	receivedSize        int
	receivedFrom        net.Addr
	message, built      = new(stun.Message), new(stun.Message)
	integrity           = stun.MessageIntegrity(macKey)
	peersOfChannels     = peers(channelPort)
	peersOfNone         = peers(otherPort)
)

// A call that is timed, as struct row_call of rows.h.
type rowCall struct {
	most int
	hold func(held int)
	call func(i int) bool
	did  func(i int) bool
}

func must(holds bool, what string) {
	if !holds {
		fmt.Println("wrong:", what)
		os.Exit(1)
	}
}

func ipOf(i int) net.IP {
	ip := make(net.IP, net.IPv4len)
	binary.BigEndian.PutUint32(ip, uint32(firstPeer+i))
	return ip
}

func peers(port int) []*net.UDPAddr {
	made := make([]*net.UDPAddr, heldMost)
	for i := range made {
		made[i] = &net.UDPAddr{IP: ipOf(i), Port: port}
	}
	return made
}

// ---- bytes

func numbered(value uint32) []byte {
	made := make([]byte, numberSize)
	binary.BigEndian.PutUint32(made, value)
	return made
}

func frameOf(i int) []byte {
	made := make([]byte, frameHeader, frameHeader+payloadSize)
	binary.BigEndian.PutUint16(made, uint16(leastChannel+i))
	binary.BigEndian.PutUint16(made[2:], payloadSize)
	return append(made, payload[:]...)
}

// An address, which stun.XORMappedAddress writes for each type.
func addAddress(to *stun.Message, kind stun.AttrType, ip net.IP, port int) {
	must(stun.XORMappedAddress{IP: ip, Port: port}.AddToAs(to, kind) == nil, "an address")
}

func isIndication(raw []byte, i, port int) bool {
	var peer stun.XORMappedAddress
	read := &stun.Message{Raw: raw}
	if read.Decode() != nil || read.Type != stun.NewType(stun.MethodSend, stun.ClassIndication) {
		return false
	}
	data, err := read.Get(stun.AttrData)
	return err == nil && bytes.Equal(data, payload[:]) && peer.GetFromAs(read, stun.AttrXORPeerAddress) == nil &&
		peer.Port == port && peer.IP.Equal(ipOf(i))
}

// ---- the server: a connection that answers each request

type holder struct {
	client  *turn.Client
	relayed net.PacketConn
	server  net.Addr
	sent    []byte
}

func (h *holder) respond(request *stun.Message) {
	class := stun.ClassSuccessResponse
	_, err := request.Get(stun.AttrUsername)
	isChallenged := err != nil
	var peer stun.XORMappedAddress
	hasPeer := peer.GetFromAs(request, stun.AttrXORPeerAddress) == nil
	if isChallenged || (request.Type.Method == stun.MethodChannelBind && hasPeer && peer.Port == otherPort) {
		class = stun.ClassErrorResponse
	}
	response := stun.MustBuild(request, stun.NewType(request.Type.Method, class))
	response.TransactionID = request.TransactionID
	response.WriteTransactionID()
	switch {
	case isChallenged:
		must(stun.CodeUnauthorized.AddTo(response) == nil && stun.NewRealm(realm).AddTo(response) == nil &&
			stun.NewNonce("a nonce").AddTo(response) == nil, "a challenge")
	case class == stun.ClassErrorResponse:
		must(stun.CodeBadRequest.AddTo(response) == nil, "an error")
	case request.Type.Method == stun.MethodAllocate:
		addAddress(response, stun.AttrXORRelayedAddress, relayedIP, relayedPort)
		response.Add(stun.AttrLifetime, numbered(seconds))
	case request.Type.Method == stun.MethodRefresh:
		response.Add(stun.AttrLifetime, numbered(seconds))
	}
	must(stun.NewLongTermIntegrity(user, realm, password).AddTo(response) == nil, "a signature")
	_, err = h.client.HandleInbound(response.Raw, h.server)
	must(err == nil, "a response is taken")
}

func (h *holder) WriteTo(sent []byte, _ net.Addr) (int, error) {
	if sent[0] != 0 || sent[1]&indicationBit != 0 {
		h.sent = sent
		return len(sent), nil
	}
	request := &stun.Message{Raw: append([]byte(nil), sent...)}
	must(request.Decode() == nil, "a request")
	go h.respond(request)
	return len(sent), nil
}

func (h *holder) ReadFrom([]byte) (int, net.Addr, error) { select {} }
func (h *holder) Close() error                           { return nil }
func (h *holder) LocalAddr() net.Addr                    { return &net.UDPAddr{IP: mappedIP, Port: mappedPort} }
func (h *holder) SetDeadline(time.Time) error            { return nil }
func (h *holder) SetReadDeadline(time.Time) error        { return nil }
func (h *holder) SetWriteDeadline(time.Time) error       { return nil }

// ---- a client that holds channels

// Sends to a peer until what is sent is as wanted: the first payloads are sent while a channel is requested.
func (h *holder) sends(to net.Addr, isWanted func(sent []byte) bool) {
	for ends := time.Now().Add(binding); time.Now().Before(ends); time.Sleep(pause) {
		size, err := h.relayed.WriteTo(payload[:], to)
		must(err == nil && size >= payloadSize, "a payload is sent")
		if isWanted(h.sent) {
			return
		}
	}
	must(false, "a channel is bound")
}

func open(held int) *holder {
	server, err := net.ResolveUDPAddr("udp4", serverAddress)
	must(err == nil, "an address")
	h := &holder{server: server}
	h.client, err = turn.NewClient(&turn.ClientConfig{
		TURNServerAddr: serverAddress, Username: user, Password: password, Realm: realm, Conn: h,
		LoggerFactory: &logging.DefaultLoggerFactory{Writer: io.Discard, DefaultLogLevel: logging.LogLevelDisabled},
	})
	must(err == nil, "a client")
	h.relayed, err = h.client.Allocate()
	must(err == nil, "an allocation")
	for i := 0; i < held; i++ {
		h.sends(peersOfChannels[i], func(sent []byte) bool { return bytes.Equal(sent, frameOf(i)) })
	}
	for i := 0; i < held; i++ {
		h.sends(peersOfNone[i], func(sent []byte) bool { return isIndication(sent, i, otherPort) })
	}
	time.Sleep(settling)
	return h
}

func holdClient(held int) {
	if clients[held] == nil {
		clients[held] = open(held)
	}
	current = clients[held]
}

// ---- payloads

func holdFrames(held int) {
	holdClient(held)
	datagram = frameOf(0)
}

func take() bool {
	var err error
	isTaken, failed := current.client.HandleInbound(datagram, current.server)
	receivedSize, receivedFrom, err = current.relayed.ReadFrom(received[:])
	return isTaken && failed == nil && err == nil
}

func takeFrame(i int) bool {
	binary.BigEndian.PutUint16(datagram, uint16(leastChannel+i))
	return take()
}

func didTake(i int) bool {
	from, isUDP := receivedFrom.(*net.UDPAddr)
	return isUDP && from.Port == channelPort && from.IP.Equal(ipOf(i)) &&
		bytes.Equal(received[:receivedSize], payload[:])
}

// A DATA indication for each peer: they are made before the clock runs, as pion's bytes have the peer's address XORed.
var indications [heldMost][]byte

func holdData(held int) {
	holdClient(held)
	for i := 0; i < held; i++ {
		if indications[i] == nil {
			made := stun.MustBuild(stun.TransactionID, stun.NewType(stun.MethodData, stun.ClassIndication))
			addAddress(made, stun.AttrXORPeerAddress, ipOf(i), channelPort)
			made.Add(stun.AttrData, payload[:])
			indications[i] = made.Raw
		}
	}
}

func takeData(i int) bool {
	datagram = indications[i]
	return take()
}

func sendTo(to net.Addr) bool {
	size, err := current.relayed.WriteTo(payload[:], to)
	return err == nil && size >= payloadSize
}

// ---- messages

func parse(raw []byte) bool {
	message.Reset()
	_, err := message.Write(raw)
	return err == nil && stun.Fingerprint.Check(message) == nil
}

func validate(raw []byte) bool {
	message.Reset()
	_, err := message.Write(raw)
	return err == nil && integrity.Check(message) == nil
}

func refuses(call func(raw []byte) bool, raw []byte) bool {
	other := append([]byte(nil), raw...)
	other[len(other)-1] ^= 1
	return !call(other)
}

func sign(int) bool {
	built.Reset()
	built.Type = stun.NewType(stun.MethodAllocate, stun.ClassSuccessResponse)
	copy(built.TransactionID[:], responseSigned[transactionAt:])
	built.WriteHeader()
	if (stun.XORMappedAddress{IP: relayedIP, Port: relayedPort}).AddToAs(built, stun.AttrXORRelayedAddress) != nil {
		return false
	}
	built.Add(stun.AttrLifetime, numbered(seconds))
	if (stun.XORMappedAddress{IP: mappedIP, Port: mappedPort}).AddTo(built) != nil {
		return false
	}
	return stun.NewSoftware("pakhvizhe ok").AddTo(built) == nil && integrity.AddTo(built) == nil
}

// ---- lines

func calls() map[string]rowCall {
	none := func(int) {}
	return map[string]rowCall{
		"take": {heldMost, holdFrames, takeFrame, didTake},
		"data": {heldMost, holdData, takeData, didTake},
		"send": {heldMost, holdClient, func(i int) bool { return sendTo(peersOfChannels[i]) },
			func(i int) bool { return bytes.Equal(current.sent, frameOf(i)) }},
		"indication": {heldMost, holdClient, func(i int) bool { return sendTo(peersOfNone[i]) },
			func(i int) bool { return isIndication(current.sent, i, otherPort) }},
		"parse": {1, none, func(int) bool { return parse(responseWhole) },
			func(int) bool { return refuses(parse, responseWhole) }},
		"validate": {1, none, func(int) bool { return validate(responseSigned) },
			func(int) bool { return refuses(validate, responseSigned) }},
		"sign": {1, none, sign, func(int) bool { return bytes.Equal(built.Raw, responseSigned) }},
	}
}

func callEach(name string, row rowCall, held, first, count int) {
	holds := true
	for n, i := 0, first; n < count; n++ {
		holds = row.call(i) && holds
		if i++; i >= held {
			i = first
		}
	}
	must(holds, name)
}

func answer(name string, row rowCall, held, first, count int) {
	row.hold(held)
	if count == 0 {
		for i := first; i < held; i++ {
			must(row.call(i) && row.did(i), name)
		}
		fmt.Println("checked")
		return
	}
	callEach(name, row, held, first, count/warm+1)
	began := time.Now()
	callEach(name, row, held, first, count)
	fmt.Printf("%.3f\n", float64(time.Since(began).Nanoseconds())/float64(count))
}

func main() {
	must(len(os.Args) == 3, "two arguments")
	var first, second error
	responseSigned, first = hex.DecodeString(os.Args[1])
	responseWhole, second = hex.DecodeString(os.Args[2])
	must(first == nil && second == nil, "hex")
	for i := range payload {
		payload[i] = byte(i*i + i/256)
	}
	rows, lines := calls(), bufio.NewScanner(os.Stdin)
	for lines.Scan() {
		var name string
		var held, first, count int
		_, err := fmt.Sscan(lines.Text(), &name, &held, &first, &count)
		must(err == nil && first < held && held <= heldMost, "a line")
		if row, isThere := rows[name]; isThere && held <= row.most {
			answer(name, row, held, first, count)
		} else {
			fmt.Println("-")
		}
	}
}
