"""contrib/ask-zabbix against a server that answers as the API does."""

import json
import os
import stat
import tempfile
import threading
import unittest
from http.server import BaseHTTPRequestHandler, HTTPServer

from common import TESTS, call, held

FIXTURE = f"{TESTS}/export/rich"


class Api(BaseHTTPRequestHandler):
    asked = []
    refuses = None

    def do_POST(self):
        request = json.loads(self.rfile.read(int(self.headers["Content-Length"])))
        self.asked.append(request)
        method, params = request["method"], request["params"]
        body = {"jsonrpc": "2.0", "id": request["id"]}
        if request["auth"] != "the token":
            body["error"] = {"code": -32602, "message": "Invalid params.", "data": "Not authorised."}
        elif method == self.refuses:
            body["error"] = {"code": -32500, "message": "Application error.", "data": "No permissions."}
        else:
            body["result"] = self.answer(method, params)
        data = json.dumps(body).encode()
        self.send_response(200)
        self.send_header("Content-Length", str(len(data)))
        self.end_headers()
        self.wfile.write(data)

    def answer(self, method, params):
        if method == "configuration.export":
            return held(f"{FIXTURE}/export.json")
        if method == "host.get" and "selectParentTemplates" in params:
            return [{"hostid": "1", "host": "web01", "parentTemplates": [{"templateid": "20"}]}]
        if method == "template.get":
            linked = {"20": ["21"], "21": ["20"]}
            return [{"templateid": one, "parentTemplates": [{"templateid": up} for up in linked[one]]} for one in params["templateids"]]
        return json.loads(held(f"{FIXTURE}/api.json")).get(method, [])

    def log_message(self, *_):
        pass


class Asking(unittest.TestCase):
    def setUp(self):
        Api.asked, Api.refuses = [], None
        self.server = HTTPServer(("127.0.0.1", 0), Api)
        threading.Thread(target=self.server.serve_forever, args=(0.01,), daemon=True).start()
        self.url = f"http://127.0.0.1:{self.server.server_port}/api_jsonrpc.php"
        self.room = tempfile.TemporaryDirectory()

    def tearDown(self):
        self.server.shutdown()
        self.server.server_close()
        self.room.cleanup()

    def ask(self, *words, token="the token"):
        return call("ask-zabbix", self.url, *words, folder=self.room.name, environment={"ZABBIX_TOKEN": token})

    def test_what_it_writes_is_what_from_zabbix_reads(self):
        status, out, told = self.ask("--api", "api.json", "--export", "export.json", "--group", "Web")
        self.assertEqual((status, out, told), (0, "", "ask-zabbix: wrote api.json\nask-zabbix: wrote export.json\n"))
        self.assertEqual(json.loads(held(f"{self.room.name}/export.json")), json.loads(held(f"{FIXTURE}/export.json")))
        ours = call("from-zabbix", "export.json", "--api", "api.json", "--strict", folder=self.room.name)
        theirs = call("from-zabbix", f"{FIXTURE}/export.json", "--api", f"{FIXTURE}/api.json", "--strict")
        self.assertEqual(ours[:2], theirs[:2])
        self.assertEqual(ours[0], 0)

    def test_it_asks_for_all_that_is_read_and_changes_nothing(self):
        self.ask("--api", "api.json", "--export", "export.json", "--group", "Web")
        methods = [one["method"] for one in Api.asked]
        self.assertEqual(set(json.loads(held(f"{self.room.name}/api.json"))) | {"template.get", "configuration.export"}, set(methods))
        self.assertTrue(all(method.endswith((".get", ".export")) for method in methods))
        params = {one["method"]: one["params"] for one in Api.asked}
        self.assertTrue(params["usermacro.get"]["globalmacro"])
        for method, wanted in (
            ("maintenance.get", {"selectGroups", "selectHosts", "selectTimeperiods", "selectTags"}),
            ("action.get", {"selectFilter", "selectOperations", "selectRecoveryOperations", "selectUpdateOperations"}),
            ("correlation.get", {"selectFilter", "selectOperations"}),
        ):
            self.assertLessEqual(wanted, set(params[method]))
        self.assertEqual(params["host.get"]["groupids"], ["21"])
        self.assertEqual(params["configuration.export"], {"format": "json", "options": {"hosts": ["1"], "templates": ["20", "21"]}})

    def test_the_files_are_for_their_owner_alone(self):
        self.ask("--api", "api.json")
        self.assertEqual(stat.S_IMODE(os.stat(f"{self.room.name}/api.json").st_mode), 0o600)

    def test_the_token_comes_from_a_file_too_and_is_never_told(self):
        with open(f"{self.room.name}/token", "w", encoding="utf-8") as file:
            file.write("the token\n")
        self.assertEqual(self.ask("--api", "api.json", "--token-file", "token", token="")[0], 0)
        status, out, told = self.ask("--api", "api.json", token="another token")
        self.assertEqual((status, out), (1, ""))
        self.assertEqual(told, "ask-zabbix: usermacro.get: Invalid params. Not authorised.\n")

    def test_what_is_refused_is_told_and_nothing_is_written(self):
        Api.refuses = "correlation.get"
        status, out, told = self.ask("--api", "api.json")
        self.assertEqual((status, told), (1, "ask-zabbix: correlation.get: Application error. No permissions.\n"))
        self.assertFalse(os.path.exists(f"{self.room.name}/api.json"))
        self.assertIn("there is no host group Nowhere", self.ask("--export", "it", "--group", "Nowhere")[2])
        self.assertEqual(self.ask("--api", "api.json", token="")[0], 2)
        self.assertEqual(self.ask()[0], 2)
        status, out, told = call("ask-zabbix", "http://127.0.0.1:1/", "--api", "x", folder=self.room.name, environment={"ZABBIX_TOKEN": "t"})
        self.assertEqual(status, 1)
