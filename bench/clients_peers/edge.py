"""An edge node by paho and Google's protobuf: a change for each line of standard input. PORT"""
import json
import sys
import time

import paho.mqtt.client as mqtt
from payload_pb2 import Payload

client = mqtt.Client(client_id="N")
client.connect("127.0.0.1", int(sys.argv[1]))
client.loop_start()
aliases, values = {}, {}
birth = Payload(timestamp=int(time.time() * 1000), seq=0)
for number in range(1000):
    name = f"area/line/metric{number}"
    aliases[name] = number + 1
    birth.metrics.add(name=name, alias=number + 1, datatype=3, int_value=0)
client.publish("spBv1.0/G/NBIRTH/N", birth.SerializeToString())
seq = 0
for line in sys.stdin:
    change = json.loads(line)
    name, value = change["metric"], change["value"]
    if values.get(name) == value:
        continue
    values[name] = value
    seq = (seq + 1) % 256
    now = int(time.time() * 1000)
    payload = Payload(timestamp=now, seq=seq)
    payload.metrics.add(alias=aliases[name], timestamp=now, int_value=value)
    last = client.publish("spBv1.0/G/NDATA/N", payload.SerializeToString())
last.wait_for_publish()
client.disconnect()
client.loop_stop()
