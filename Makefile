# `make` prints the rows of this file that have ##: each target, what it does, how long it takes on four cores, and what it
# wants beside Python 3: rt is Rattle's kit, and the others are packages of Debian 12. A line of #: begins a group.
# The program is that of PROGRAM=FILE, else crates/tracedesk/out/tracedesk as long as no source is newer. Where neither is there,
# make build and make test prove and build it, make demo runs it before its proof, and the others say so and end.
.PHONY: help demo build day plant-recall test lint ops-test truth-test evidence-test wrong-bodies faults send-test bridge-test station-test plant-test bench dist
row = sed -n 's/^\($(1)\):\( *\)\#\# /make \1\2/p; s/^\#: /\n/p' $(firstword $(MAKEFILE_LIST))
say = @$(call row,$@) | grep make >&2

help:
	@echo "make TARGET [PROGRAM=FILE]  what it does | how long, on four cores | what it wants beside Python 3: rt is Rattle's kit"
	@$(call row,[a-z-]*)

#: run
demo:          ## the answers to five messages: at once where a program is there, else by a run before its proof | 3 min | rt
	@dev/demo
build:         ## proves and builds the program, and prints its path | 35 min, then at once | rt
	@dev/build
day:           ## feeds a made-up shift to a desk, and prints what is asked of it: docs/day.md | 10 s
	@examples/day
plant-recall:  ## three lines in one PostgreSQL, and a recall over them, compared with docs/plant.md; the same recalls three ways, what a load can meet, and three plants | 6 min | postgresql python3-psycopg python3-pytest
	$(say)
	@/usr/bin/python3 -m pytest -q ops/tests/test_plant_*.py ops/tests/test_three_ways.py

#: test
test:          ## the gate: looks at the sources, proves everything from nothing, tries wrong bodies, runs the tests and the worked cases, fails calls; a table says what each step cost | 1 h | rt, and the packages of dev/packages.txt, or what wants them is skipped
	$(say)
	@dev/test
lint:          ## format, types, unused names, scripts and lengths of files, in all that isn't Rattle | 1 min | black mypy pyflakes3 eslint shellcheck
	@dev/lint
ops-test:      ## all tests of the tools in ops/, also those that take minutes or want root, but for make plant-test and truth-test | 30 min | postgresql python3-psycopg python3-pytest nginx openssl
	$(say)
	@/usr/bin/python3 -m pytest -q ops/tests --ignore-glob='*installed*' --ignore=ops/tests/test_truth.py
truth-test:    ## recalls of 10,000 simulated shifts, compared with what happened at the machines | half an hour or more | python3-pytest python3-pytest-xdist
	$(say)
	@/usr/bin/python3 -m pytest -q -n 4 ops/tests/test_truth.py
evidence-test: ## 3,000 random histories of a line's folder, with kills at each call and planted faults | 1 h | python3-hypothesis
	$(say)
	@/usr/bin/python3 -m pytest -q ops/tests/test_histories.py
wrong-bodies:  ## tries all wrong bodies, those outside the tests too, and the wrong programs: each has to be refused | 1 h, and up to 40 min for each of the programs | rt
	$(say)
	@dev/wrong-bodies
faults:        ## fails each call of the program, refuses its memory, cuts the power, kills it, and damages its file | 25 min | gcc libc6-dev
	$(say)
	@dev/faults/run calls
	@dev/faults/run calls --planted
	@dev/faults/run damage
send-test:     ## the senders: 10,000 messages while tracedesk-send, nginx and `serve` are killed 200 times; a proxy that fails; TLS | 6 min | python3-pytest nginx openssl
	$(say)
	@/usr/bin/python3 -m pytest -q clients/python/tests
bridge-test:   ## the bridge: its filter, its sources, kills, and kills of RabbitMQ and mosquitto under it | 5 min | jq python3-pytest rabbitmq-server python3-qpid-proton mosquitto python3-paho-mqtt openssl
	$(say)
	@/usr/bin/python3 -m pytest -q examples/bridge/tests
station-test:  ## the station in headless Chromium behind nginx: each flow, kills, looks: docs/station.md | 15 min | chromium chromium-driver python3-selenium nginx zbar-tools poppler-utils openssl
	$(say)
	@/usr/bin/python3 -m pytest -q station/tests
plant-test:    ## installs the packages on a fresh Debian 12 of its own, and over those of 1.0.0 on another, as root, and follows docs/operations-*.md there | 20 min | debootstrap iproute2 pandoc help2man binutils debhelper dpkg-dev python3-pytest python3-pytest-xdist
	$(say)
	@/usr/bin/python3 -m pytest -q -n 2 --dist=loadgroup ops/tests/test_installed*.py

#: measure
bench:         ## what a day costs | 5 min | time
	$(say)
	@dev/bench/run day

#: package
dist:          ## Debian's packages in dist: the programs and what a plant installs with them | 1 min | pandoc help2man debhelper dpkg-dev
	$(say)
	@dev/dist
