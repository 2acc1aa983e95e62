# Functions for the edits of kubelet-replay what-if. Each changes the lines that it names, and leaves the others as they are. What an
# edit asks for is written to standard error, so that what-if knows of pods and containers that are not there.

def asks($what): ({"what-if": $what} | debug | empty), .;

def node(f): if .kind == "node" then f else . end;

def key: "\(.metadata.namespace // "default")/\(.metadata.name)";

# the node line asks too, since there may be no pod line
def pod($wanted; f):
  if .kind == "node" then asks({pod: $wanted})
  elif .kind == "pod" then
    (.pod | key) as $key | asks({pod: $wanted, is: $key}) | if $key == $wanted then .pod |= f else . end
  else . end;

def container($wanted; $name; f):
  pod($wanted;
    asks({pod: $wanted, container: $name, has: [.spec.initContainers // [], .spec.containers // [] | .[].name]})
    | .spec |= ((if .initContainers then .initContainers[] |= (if .name == $name then f else . end) else . end)
                | .containers[] |= (if .name == $name then f else . end)));

def tick(f): if .kind == "tick" then f else . end;
