# The doors of this repository. `make` alone lists them.
.POSIX:

help:
	@echo 'make build    the program of the present text, without proofs: crates/parcel_tool/out/parcel_tool'
	@echo 'make demo     builds it, and prints the overlay of the town in examples/town'
	@echo 'make quick    builds it, and tries what changed since the last commit, without proofs; not the gate'
	@echo 'make test     the gate: every proof, mutant, test and run (.ci/run)'
	@echo 'make mutants  tries every mutant of both tiers; goes on where it was stopped; hours from nothing'
	@echo 'make release  what is handed out, in dist/: static program, .tar.gz, wheel, .deb, QGIS plugin, of a commit that passed the gate here'
	@echo 'make release-unproved  the same packages and a demonstration, without any proof, in minutes, in dist-unproved/'
	@echo 'make reference  compares 100,000 answers of the built program with a second reading of the definitions (reference/)'
	@echo 'make bench    measures speed and memory (benches/all.sh)'

build:
	@scripts/build_unproved

demo:
	@echo 'demo: compiles the program without proofs (two to three minutes of a processor, once for each text)'
	@scripts/build_unproved
	@echo 'demo: cd examples/town; parcel_tool overlay city.shp parcels.shp zones.shp --unit cm'
	@cd examples/town && ../../crates/parcel_tool/out/parcel_tool overlay city.shp parcels.shp zones.shp --unit cm

quick:
	@python3 scripts/quick

test:
	@.ci/run

mutants:
	@scripts/wrong_bodies --all

release:
	@scripts/release

release-unproved:
	@scripts/release --unproved

reference:
	@python3 -m reference --answers 100000

bench:
	@benches/all.sh

.PHONY: help build demo quick test mutants release release-unproved reference bench
