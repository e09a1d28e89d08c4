# ratios.sh: read by test.sh. The commands of docs/ratios.md.
test_ratios() { commands_of ../../docs/ratios.md; }
