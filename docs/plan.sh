#!/bin/bash
# Makes docs/plan.svg, a picture of the plan of an example: systems of a batch stand in one column, an arrow leads from
# a system to one that has to wait for it and has the causes, and a dashed one has no rule among them. It wants Graphviz
# and the built program.
set -eu
cd "$(dirname "$0")/.."
crates/msgrun/out/msgrun plan examples/answered/plan_of_a_pipeline.json --dot | dot -Tsvg >docs/plan.svg
