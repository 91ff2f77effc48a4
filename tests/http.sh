#!/usr/bin/env bash
# HTTP of the built program `abft serve`, by curl and by Python's sockets. The last line is `N passed, M failed`.
set -u
cd "$(dirname "$0")/.." || exit 1
. tests/harness.sh
build abft --help
abft=$built

# starts OPTIONS..: a server that runs until the file descriptor 9 is closed; sets `port` and `http` to its ports
starts() {
    mkfifo "$room/input"
    "$abft" serve --http 0 --tree 10 --base-ms 50 --rounds 100000 --sessions 1000 --stop-at-eof --quiet "$@" \
        <"$room/input" >"$room/served" 2>"$room/faults" &
    server=$!
    exec 9>"$room/input"
    for _ in {1..600}; do
        [ "$(wc -l <"$room/served")" -ge 2 ] && break
        sleep 0.1
    done
    port=$(sed -n 's/^listening //p' "$room/served")
    http=$(sed -n 's/^http //p' "$room/served")
    at="http://127.0.0.1:$http"
    ask="python3 tests/http_clients.py $http"
}

# ends: closes the input of the server, and sets `ended` to its status
ends() {
    exec 9>&-
    wait "$server"
    ended=$?
    rm "$room/input"
}

satoshi=57D835FBBA0DBF922D8A2EDA56922C9B24E7760927F245A7684A736C4769DB8A
starts --histories "$room/histories"

# The tutorial of CometBFT's key-value store.
runs 'a transaction is committed' 0 "0 0 $satoshi"$'\n' \
    "$ask fields '/broadcast_tx_commit?tx=\"name=satoshi\"' check_tx.code deliver_tx.code hash"
runs 'by curl, as the tutorial writes it' 0 $'{"check_tx":{"code":0,' \
    "curl -s '$at/broadcast_tx_commit?tx=\"abcd\"' | grep -o '{\"check_tx\":{\"code\":0,' | tr -d '\\n'"
again="$ask fields '/broadcast_tx_commit?tx=\"again=1\"' height"
runs 'the same bytes once more are in a later block' 0 $'later\n' "first=\$($again); $ask settle; second=\$($again); [ \"\$second\" -gt \"\$first\" ] && echo later"
runs 'a query right after a commit sees its value' 0 $'20 seen; replica 0 was behind after some\n' "$ask own 20"
runs 'its value is found' 0 $'exists b\'name\' b\'satoshi\'\n' "$ask value '/abci_query?data=\"name\"'"
runs 'its value by curl' 0 '"value":"c2F0b3NoaQ=="' "curl -s '$at/abci_query?data=\"name\"' | grep -o '\"value\":\"[^\"]*\"' | tr -d '\\n'"
runs 'a key without a value' 0 $'does not exist b\'nobody\' None\n' "$ask value '/abci_query?data=\"nobody\"'"
runs 'a key in hexadecimal digits' 0 $'exists b\'name\' b\'satoshi\'\n' "$ask value '/abci_query?data=0x6e616d65'"
runs 'the height 0 is the last' 0 $'exists b\'name\' b\'satoshi\'\n' "$ask value '/abci_query?data=\"name\"&height=0'"
runs 'another height' 0 $'400 -32602 the application answers as of its last block alone\n' "$ask error '/abci_query?data=\"name\"&height=4000'"

# What is asked of a replica.
runs 'a status' 0 $'abft replica 0 False 0\n' "$ask fields '/status?replica=0' node_info.network node_info.moniker sync_info.catching_up abft.replica"
runs 'the status of another' 0 $'replica 3 3\n' "$ask fields '/status?replica=3' node_info.moniker abft.replica"
runs 'the status of the replica with the most blocks' 0 $'same\n' "$ask fields /status node_info.moniker abft.replica | sed 's/^replica \\([0-3]\\) \\1\$/same/'"
runs 'no such replica' 0 $'400 -32602 the cluster has no such replica\n' "$ask error '/status?replica=4'"
runs 'the first block' 0 $'1 YT0x\n' "$ask fields '/block?height=1' block.header.height block.data.txs.0"
runs 'no block at height 0' 0 $'500 -32603 the replica has not committed this height\n' "$ask error '/block?height=0'"
runs 'no block above the last' 0 $'500 -32603 the replica has not committed this height\n' "$ask error '/block?height=4096'"
runs 'the application' 0 $'kvstore\n' "$ask fields /abci_info response.data"
runs 'its hash has 32 bytes' 0 $'32\n' "$ask fields /abci_info response.last_block_app_hash | base64 -d | wc -c"
runs 'nothing waits' 0 $'0 0 0 None\n' "$ask settle; $ask fields /num_unconfirmed_txs n_txs total total_bytes txs"
runs 'a whole reply' 0 $'HTTP/1.1 200 OK\r\nContent-Type: application/json\r\nContent-Length: 37\r\nConnection: close\r\n\r\n{"jsonrpc":"2.0","id":-1,"result":{}}' \
    "curl -si $at/health"
runs 'the page' 0 $'<!DOCTYPE html>\n' "curl -s $at/ | sed -n 1p"

# Only 127.0.0.1 is served: curl can't connect to another address of the loopback range (its status 7).
runs 'no connection at another address' 7 '' "curl -s 'http://127.0.0.2:$http/health'"

# Transactions.
runs 'a transaction for the pool' 0 $'0  3\n' "$ask fields '/broadcast_tx_sync?tx=\"b=2\"&replica=3' code data abft.replica"
runs 'an empty one' 0 $'400 -32602 the transaction has no byte\n' "$ask error '/broadcast_tx_sync?tx=\"\"'"
runs 'one of 65 bytes' 0 $'400 -32602 the transaction has more than 64 bytes\n' \
    "$ask error '/broadcast_tx_commit?tx=\"$(printf 'x%.0s' {1..65})\"'"
runs 'no parameter' 0 $'400 -32602 the parameter tx is missing or wrong\n' "$ask error /broadcast_tx_commit"

# An application outside of the ledger: each document is registered once, whatever else is in the blocks.
one=$(printf one | sha256sum | cut -c1-64) two=$(printf two | sha256sum | cut -c1-64)
for document in "$one" "$two" "$one"; do
    $ask settle
    $ask fields "/broadcast_tx_commit?tx=0x$document" height >"$room/registered" 2>&1
done
state=$(printf "\\x80$(printf '\\x00%.0s' {1..7})\\x02$(printf '%s' "$one$two" | sed 's/../\\x&/g')" | sha256sum | cut -c1-64)
runs 'a follower registers documents' 0 "0 0 $one"$'\n'"0 1 $two"$'\n'"2 0 $one"$'\n'"state $state"$'\n' \
    "timeout 60 examples/follower.py $http \$(cat '$room/registered') | sed -n 's/^[0-9]* \\([02] \\)/\\1/p; /^state/p'"

# Prometheus.
runs 'metrics of all replicas' 0 $'replicas: 0 1 2 3\n' "$ask metrics"
runs 'counts of frames, for the end' 0 '' "curl -s '$at/metrics' >'$room/scraped'"
runs 'metrics of one' 0 $'replicas: 2\n' "$ask metrics '/metrics?replica=2'"

# A client that was written for CometBFT.
runs "CometBFT's client reads each answer" 0 $'14 calls\n' "python3 tests/comet_client.py $http"

# Clients that are no good.
runs 'no HTTP' 0 $'HTTP/1.1 400 Bad Request\n' "$ask bytes 00010203ff"
runs 'a request of the binary protocol' 0 $'HTTP/1.1 400 Bad Request\n' "$ask bytes 000103"
runs 'half a head' 0 $'HTTP/1.1 400 Bad Request\n' "$ask bytes 474554202f6865616c7468"
runs 'what follows a head' 0 $'HTTP/1.1 200 OK\n' "$ask bytes 474554202f6865616c746820485454502f312e310d0a0d0a$(printf '78%.0s' {1..9000})"
runs 'a client that sends nothing' 0 $'\n' "$ask bytes ''"
runs 'a long head' 0 $'HTTP/1.1 431 Request Header Fields Too Large\n' "$ask bytes $(printf '61%.0s' {1..20000})"
runs 'no such path' 0 $'404 -32601 no such path\n' "$ask error /nothing"
runs 'another method' 0 $'405\n' "curl -s -o /dev/null -w '%{http_code}\\n' -X DELETE $at/status"
runs 'a body is not read' 0 $'405\n' "curl -s -o /dev/null -w '%{http_code}\\n' -d 'name=satoshi' $at/broadcast_tx_commit"
runs 'a head that never ends' 0 $'ended in time\n' "$ask cut"
runs 'two hundred that sleep' 0 $'200 at once\nsilent: {\'\'}\ncut: HTTP/1.1 400 Bad Request\nclosed in time\n' "$ask crowd 200"
runs 'one after another' 0 $'many\n' "$ask steady 5"
runs 'then all is as before' 0 $'exists b\'name\' b\'satoshi\'\n' "$ask value '/abci_query?data=\"name\"'"
ends
runs 'all replicas got a broadcast' 0 $'replicas: 0 1 2 3\n' "$ask submits '$room/histories' b=2"
runs 'the counts are those of the histories' 0 $'frames accepted and ignored: some\n' "$ask counts '$room/scraped' '$room/histories'"
runs 'the end of the input ends it' 0 $'0\nledger\n' "echo $ended; sed -n 's/^\\(ledger\\) .*/\\1/p' '$room/served'"
runs 'it tells nothing but its ports, its end, and that everybody knows its seed' 0 \
    $'listening\nhttp\ncommits\ncommits\ncommits\ncommits\nledger\nthe seed is the default one, which everybody knows: anybody can forge\n' \
    "sed '/^[0-9]/d; s/ .*//' '$room/served'; cat '$room/faults'"

# Rounds that are over: HTTP alone keeps nothing up.
mkfifo "$room/input"
runs 'no session is waited for but those of the binary protocol' 0 $'http\ncommits\ncommits\ncommits\ncommits\nledger\n' \
    "(exec 8<>'$room/input'; '$abft' serve --http 0 --base-ms 20 --rounds 8 --sessions 1 --quiet >'$room/served' 2>'$room/faults' & sleep 3
    python3 -c 'import socket, sys; socket.create_connection((\"127.0.0.1\", int(sys.argv[1]))).close()' \$(sed -n 's/^listening //p' '$room/served'); wait)
    sed '1d; /^[0-9]/d; s/ .*//' '$room/served'"
runs 'a port that is taken' 0 $'3 \n' "python3 -c 'if 1:
    import socket, subprocess, sys
    taken = socket.create_server((\"127.0.0.1\", 0))
    done = subprocess.run([sys.argv[1], \"serve\", \"--http\", str(taken.getsockname()[1])], capture_output=True, text=True)
    print(done.returncode, done.stdout)' '$abft'"
# The same bytes, by a server whose rounds stay short.
rm "$room/input"
starts --steady
runs 'the same bytes again and again, as soon as a pool takes them' 0 $'each in a later block\n' "timeout 120 $ask again 8"
ends
finish
