# run: proves the library and its programs, and shows what they are for. test: the gate.
# lib: the library for hosts. kd: the program for people. install, uninstall: both below PREFIX, with header, examples, man page and the
# rest; dist: the library's part of that as one tar, with sums.
# bench: speed against plain Rust. interop: with a real client, libtorrent, on loopback. torrents: read those that libtorrent
# makes, and have it read ours. soak: generated calls compared with the second implementation, for long.
# gateway: a small gateway over the library. gateway-test: its long tests. gateway-demo: two of them on loopback; gateway-damage damages a
# file of the second and shows it found and fetched again, gateway-stop ends both.
.PHONY: run test lib kd install uninstall dist bench interop torrents soak gateway gateway-test gateway-demo gateway-damage gateway-stop

PREFIX ?= /usr/local
export PREFIX DESTDIR

run:
	@host/run

test:
	@bash .ci/run

lib:
	host/collect archive
	@echo target/staticlib/libkombudeva.a

kd:
	@[ -f target/staticlib/libkombudeva.a ] || $(MAKE) lib
	host/kd/build

install: kd
	@host/install

uninstall:
	@host/install remove

dist:
	@[ -f target/staticlib/libkombudeva.a ] || $(MAKE) lib
	@host/dist

bench: lib
	host/bench.sh

interop: lib
	host/interop

torrents: lib
	host/torrents

soak: lib
	host/soak

gateway:
	@[ -f target/staticlib/libkombudeva.a ] || $(MAKE) lib
	host/gateway/build

gateway-test:
	@[ -f target/staticlib/libkombudeva.a ] || $(MAKE) lib
	host/gateway/test all

gateway-demo: gateway
	@host/gateway/demo start

gateway-damage:
	@host/gateway/demo damage

gateway-stop:
	@host/gateway/demo stop
