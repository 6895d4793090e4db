# Takes out of a proved module what it says of the machine that rattle made it for (tools/targets.py): the lines of the
# module, and the attributes of functions.
/^(source_filename = |target (datalayout|triple) = )/d
s/ "(probe-stack|stack-probe-size|target-cpu|target-features|frame-pointer)"="[^"]*"//g
s/^(attributes #[0-9]+ = \{) \}/\1 "empty" }/
