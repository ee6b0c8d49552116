#!/usr/bin/env bash
# Times show-inf over an INF file of 1 MiB whose AddReg section has some 32,000 parameters.
# Usage: bash bench/show_inf.sh    (after `rt run` or `rt lib` built crates/hedzvaki/out/hedzvaki)
set -eu
top=$(cd "$(dirname "$0")/.." && pwd)
work=$(mktemp -d)
trap 'rm -rf "$work"' EXIT
python3 - "$work/big.inf" <<'PYTHON'
import sys
text = '''[Version]
Signature="$Windows NT$"
[Manufacturer]
%M%=Models
[Models]
"NE2000" = Ne.Inst, *PNP80D6
[Ne.Inst]
AddReg=Ne.Reg
[Strings]
M="Acme"
[Ne.Reg]
'''
n = 0
while len(text) < 1_048_500:
    text += 'HKR,,Parameter%05d,0,"%%M%% %d"\n' % (n, n)
    n += 1
open(sys.argv[1], 'w').write(text)
PYTHON
wc -c "$work/big.inf"
time "$top/crates/hedzvaki/out/hedzvaki" show-inf "$work/big.inf" '*PNP80D6' > "$work/lines"
wc -lc "$work/lines"
