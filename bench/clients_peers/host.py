"""A host by paho and Google's protobuf: a JSON line for each message. PORT COUNT"""
import json
import sys

import paho.mqtt.client as mqtt
from payload_pb2 import Payload

names, seen, wanted = {}, 0, int(sys.argv[2])


def heard(client, _, message):
    global seen
    payload = Payload()
    payload.ParseFromString(message.payload)
    metrics = []
    for metric in payload.metrics:
        if metric.HasField("name"):
            names[metric.alias] = metric.name, metric.datatype
        name, datatype = names.get(metric.alias, (None, None))
        value = getattr(metric, metric.WhichOneof("value"))
        metrics.append({"metric": name, "type": datatype, "value": value})
    print(json.dumps({"topic": message.topic, "seq": payload.seq, "time": payload.timestamp, "metrics": metrics}))
    seen += 1
    if seen == wanted:
        client.disconnect()


client = mqtt.Client(client_id="H")
client.on_connect = lambda *_: client.subscribe("spBv1.0/G/#")
client.on_message = heard
client.connect("127.0.0.1", int(sys.argv[1]))
client.loop_forever()
