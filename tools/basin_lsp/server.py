"""The server: open texts, what is asked of them, and what is told of them without being asked."""

import json
import pickle
import queue
import subprocess
import sys
import tempfile
import threading
import traceback
from contextlib import suppress
from pathlib import Path
from time import monotonic

from basin_files.program import Unable, built
from basin_files.reasons import LONG, plain

from basin_rules.findings import Finding
from basin_rules.places import Source, Span

from . import beside, checking, colours, completing, fixes, hints, models, renaming, telling
from .documents import Document, path_of, uri_of
from .layout import Same, laid_out
from .reading import read
from .wire import (
    CANCELLED,
    INTERNAL_ERROR,
    INVALID_PARAMS,
    INVALID_REQUEST,
    METHOD_NOT_FOUND,
    NOT_INITIALIZED,
    REQUEST_FAILED,
    Failed,
)

PATIENCE = 0.05  # seconds without a change, before diagnostics are told
LONGEST_RUN = 60  # seconds of the program
REFUSED_MODEL, REFUSED_RULES, REFUSED_CODE = 6, 7, 9
VERSION = "1"


class Server:
    """Takes messages one after another. Diagnostics are told when no message waits."""

    def __init__(self, wire):
        self.wire = wire
        self.documents, self.closed = {}, {}
        self.settings = {"model": "", "program": True, "inputs": True}
        self.state = "new"
        self.dirty = {}  # addresses whose diagnostics are due, and since when
        self.judging = None
        self.roots = []
        self.current = None

    # ---- the loop

    def run(self):
        """Serves up to `exit` or the end of the input: the status."""
        self.wire.start()
        while self.state != "gone":
            try:
                message = self.wire.waiting.get(timeout=self.rest())
            except queue.Empty:
                self.tell_due()
                continue
            if message is None:
                break
            self.take(message)
        self.end_judging()
        return 0 if self.state == "gone" and self.ordered else 1

    ordered = False

    def rest(self):
        """How long to wait for a message."""
        if not self.dirty:
            return None
        return max(0.0, min(self.dirty.values()) + PATIENCE - monotonic())

    def take(self, message):
        """Takes a message."""
        method, name = message.get("method"), message.get("id")
        if method is None:
            return  # an answer to what this server asked
        params = message.get("params")
        params = params if isinstance(params, dict) else {}
        if "id" not in message:
            self.notice(method, params)
            return
        self.current = name
        try:
            self.wire.answer(name, self.asked(method, params))
        except Failed as failed:
            self.wire.answer(name, error={"code": failed.code, "message": failed.says})
        except (KeyError, TypeError, ValueError, AttributeError) as error:
            self.log(traceback.format_exc())
            self.wire.answer(name, error={"code": INVALID_PARAMS, "message": plain(f"{type(error).__name__}: {error}", LONG)})
        except Exception as error:
            self.log(traceback.format_exc())
            self.wire.answer(name, error={"code": INTERNAL_ERROR, "message": plain(f"{type(error).__name__}: {error}", LONG)})
        self.wire.cancelled.discard(name)
        self.current = None

    def asked(self, method, params):
        """The answer to a request."""
        if self.is_cancelled():
            raise Failed(CANCELLED, "cancelled")
        if self.state == "new" and method != "initialize":
            raise Failed(NOT_INITIALIZED, "initialize comes first")
        if self.state == "ended":
            raise Failed(INVALID_REQUEST, "this server is shut down")
        act = ASKED.get(method)
        if not act:
            raise Failed(METHOD_NOT_FOUND, f"{plain(str(method))} is not known here")
        return act(self, params)

    def is_cancelled(self):
        """Whether the request that is worked on isn't wanted any more."""
        return isinstance(self.current, (int, str)) and self.current in self.wire.cancelled

    def notice(self, method, params):
        """Takes a notification; what is wrong with it is only logged."""
        if method == "exit":
            self.ordered = self.state == "ended"
            self.state = "gone"
        elif self.state == "ready" and method in NOTICED:
            try:
                NOTICED[method](self, params)
            except Exception:
                self.log(traceback.format_exc())

    def log(self, text):
        """Writes to the editor's log."""
        self.wire.tell("window/logMessage", {"type": 2, "message": text})

    # ---- texts

    def opened(self, params):
        """A text is opened."""
        given = params["textDocument"]
        uri = given["uri"]
        self.documents[uri] = Document(uri, given["text"], given.get("version"), given.get("languageId", ""))
        self.touch(uri)

    def changed(self, params):
        """A text is changed."""
        given = params["textDocument"]
        document = self.documents[given["uri"]]
        document.changed(params["contentChanges"], given.get("version"))
        self.touch(document.uri)

    def saved(self, params):
        """A text is saved; inputs beside it may have changed."""
        self.touch(params["textDocument"]["uri"])

    def shut(self, params):
        """A text is closed: nothing is told of it any more."""
        uri = params["textDocument"]["uri"]
        document = self.documents.pop(uri, None)
        self.dirty.pop(uri, None)
        self.wire.tell("textDocument/publishDiagnostics", {"uri": uri, "diagnostics": []})
        if document and self.is_model(document):
            self.touch_rules()

    def watched(self, _params):
        """Files were changed outside the editor."""
        self.closed = {}
        for uri in self.documents:
            self.touch(uri)

    def configured(self, params):
        """Settings are changed."""
        self.set(params.get("settings"))
        self.watched(params)

    def set(self, given):
        """Takes settings."""
        given = given.get("basin", given) if isinstance(given, dict) else {}
        for name, value in given.items() if isinstance(given, dict) else ():
            if name in self.settings and isinstance(value, (str, bool)):
                self.settings[name] = value

    def touch(self, uri):
        """The diagnostics of a text are due, and with a model's those of the rulesets that it judges."""
        document = self.documents.get(uri)
        if document:
            self.dirty[uri] = monotonic()
            if self.is_model(document):
                self.touch_rules()

    def touch_rules(self):
        """The diagnostics of all rulesets are due."""
        for uri, document in self.documents.items():
            if not self.is_model(document):
                self.dirty[uri] = monotonic()

    def document(self, params):
        """The open text of a request."""
        uri = params["textDocument"]["uri"]
        if uri not in self.documents:
            raise Failed(INVALID_PARAMS, "the text is not open")
        return self.documents[uri]

    def is_model(self, document):
        """Whether a text is a model."""
        name = document.path.name if document.path else document.uri
        return models.is_like_model(name, document.text) or (document.language == "toml" and "[[object]]" in document.text)

    def sort(self, document):
        """What a text is: a model, rules, code, requirements or inputs."""
        return beside.MODEL if self.is_model(document) else beside.sort_of(document)

    def rules_of(self, params):
        """The ruleset of a request, or `None` where its text is something else."""
        document = self.document(params)
        return document if self.sort(document) == beside.RULES else None

    def on_disk(self, path):
        """The text of a file, as it is open or as it stands in the folder; `None` where there is none."""
        path = Path(path)
        uri = uri_of(path)
        for document in self.documents.values():
            if document.uri == uri or document.path == path:
                return document
        try:
            stat = path.stat()
            mark = (stat.st_mtime_ns, stat.st_size)
            if uri not in self.closed or self.closed[uri][0] != mark:
                self.closed[uri] = mark, Document(uri, path.read_bytes().decode("utf-8", "replace"))
        except OSError:
            return None
        return self.closed[uri][1]

    def model_path(self, document):
        """The path of the model of a ruleset."""
        named = self.settings["model"]
        beside = document.path.parent if document.path else None
        if named:
            for root in (beside, *self.roots):
                if root and (root / named).exists():
                    return root / named
            return Path(named)
        return beside / "model.toml" if beside else None

    def model_document(self, document):
        """The text of the model of a ruleset, or `None`."""
        path = self.model_path(document)
        return self.on_disk(path) if path else None

    def model(self, document):
        """The model of a ruleset, with which nothing is wrong; or `None`."""
        return models.good_model(self.model_document(document))

    def inputs(self, document):
        """The bytes of the inputs beside the model, or `None`."""
        path = self.model_path(document)
        if not self.settings["inputs"] or not path:
            return None
        found = self.on_disk(path.parent / "inputs.csv")
        return found.content if found else None

    def rulesets(self, model_document):
        """The rulesets and requirements of a model: those that are open, and those in its folder."""
        found = [one for one in self.documents.values() if not self.is_model(one) and self.model_document(one) is model_document]
        paths = {one.path for one in found}
        if model_document and model_document.path:
            folder = model_document.path.parent
            for path in sorted([*folder.glob("*.rpl"), *folder.glob("*.require")]):
                if path not in paths and (one := self.on_disk(path)) and self.model_document(one) is model_document:
                    found.append(one)
        return [one for one in found if beside.sort_of(one) in (beside.RULES, beside.REQUIREMENTS)]

    # ---- diagnostics

    def tell_due(self):
        """Tells the diagnostics that are due."""
        now = monotonic()
        for uri in [uri for uri, since in self.dirty.items() if since + PATIENCE <= now]:
            del self.dirty[uri]
            document = self.documents.get(uri)
            if document:
                try:
                    self.tell(document)
                except Exception:
                    self.log(traceback.format_exc())
            if self.wire.waiting.qsize():
                return

    def tell(self, document, more=(), again=True):
        """Tells the diagnostics of a text, and has the program judge it."""
        found = self.found(document)
        told = {"uri": document.uri, "diagnostics": [*found, *more]}
        if document.version is not None:
            told["version"] = document.version
        self.wire.tell("textDocument/publishDiagnostics", told)
        if again and self.sort(document) in (beside.RULES, beside.CODE):
            self.begin_judging(document)

    def found(self, document):
        """The diagnostics of a text."""
        if self.is_model(document):
            return checking.diagnostics_of_model(document)
        if self.sort(document) in (beside.REQUIREMENTS, beside.INPUTS):
            return beside.diagnostics_of(document, self.model(document), self.model_document(document))
        return checking.diagnostics_of(document, self.model(document), self.inputs(document))

    def begin_judging(self, document):
        """Has `basin check` judge a ruleset in the background; where it answers otherwise, that is told, too."""
        self.end_judging()
        model = self.model_document(document)
        if not model or not models.good_model(model):
            return
        program = ""
        if self.settings["program"]:
            with suppress(Unable):
                program = str(Path(built()).resolve())
        self.judging = Judging(self, program, document, model, self.inputs(document))
        self.judging.start()

    def end_judging(self):
        """Ends what the program is at: a newer text has come."""
        if self.judging:
            self.judging.end()
            self.judging = None

    def looked(self, document, version, told):
        """What to look at in rules that are accepted is known."""
        if document.version == version and self.documents.get(document.uri) is document:
            document.kept["looks"] = told
            if told:
                self.tell(document, again=False)

    def differs(self, document, version, answer, expected):
        """The program answered otherwise than the tools: its words are told besides."""
        if document.version == version and self.documents.get(document.uri) is document:
            says = f"{answer or 'basin accepts this'} (the tools' own check: {expected or 'accepted'})"
            one = {"range": document.range(0, 0), "severity": checking.FAULT if answer else checking.TOLD}
            self.tell(document, [{**one, "source": "basin check", "message": plain(says, LONG)}], again=False)

    # ---- requests

    def initialize(self, params):
        """What this server can do."""
        if self.state != "new":
            raise Failed(INVALID_REQUEST, "initialize comes once")
        self.state = "ready"
        folders = params.get("workspaceFolders") or ([{"uri": params["rootUri"]}] if params.get("rootUri") else [])
        self.roots = [path for one in folders if (path := path_of(one["uri"]))]
        self.set(params.get("initializationOptions"))
        return {
            "serverInfo": {"name": "basin", "version": VERSION},
            "capabilities": {
                "positionEncoding": "utf-16",
                "textDocumentSync": {"openClose": True, "change": 2, "save": {"includeText": False}},
                "completionProvider": {"triggerCharacters": [".", '"', " "]},
                "hoverProvider": True,
                "definitionProvider": True,
                "referencesProvider": True,
                "documentHighlightProvider": True,
                "documentSymbolProvider": True,
                "documentFormattingProvider": True,
                "documentRangeFormattingProvider": True,
                "inlayHintProvider": True,
                "codeLensProvider": {},
                "signatureHelpProvider": {"triggerCharacters": ["(", ","]},
                "renameProvider": {"prepareProvider": True},
                "codeActionProvider": {"codeActionKinds": ["quickfix"]},
                "semanticTokensProvider": {
                    "legend": {"tokenTypes": list(colours.TYPES), "tokenModifiers": list(colours.MODIFIERS)},
                    "full": True,
                },
            },
        }

    def shutdown(self, _params):
        """Gets ready for the end."""
        self.state = "ended"
        self.end_judging()

    def fix(self, params):
        """The changes that hints mean, for what is wrong in a stretch."""
        document = self.rules_of(params)
        if not document:
            return []
        only = params.get("context", {}).get("only")
        if only and not any("quickfix".startswith(one) for one in only):
            return []
        begin, end = document.byte(params["range"]["start"]), document.byte(params["range"]["end"])
        model, inputs = self.model(document), self.inputs(document)
        actions = []
        for weight, finding in checking.findings_of(document, model, inputs)[: checking.MOST]:
            last = max(finding.span.end, finding.span.begin)
            line = document.position(finding.span.begin)["line"]
            near = begin == end and document.position(begin)["line"] == line
            if not near and (last < begin or finding.span.begin > end):
                continue
            offered = fixes.fixes_of(document, model, finding, self.is_cancelled)
            for title, edits in offered:
                changes = [{"range": document.range(a, b), "newText": new} for a, b, new in edits]
                actions.append(
                    {
                        "title": title,
                        "kind": "quickfix",
                        "diagnostics": [checking.diagnostic(document, weight, finding)],
                        "isPreferred": len(offered) == 1 and weight == checking.FAULT,
                        "edit": {"changes": {document.uri: changes}},
                    }
                )
        if self.is_cancelled():
            raise Failed(CANCELLED, "cancelled")
        return actions

    def complete(self, params):
        """What may stand at a place."""
        document = self.document(params)
        byte = document.byte(params["position"])
        if self.is_model(document):
            return completing.completions_of_model(document, byte)
        sort = self.sort(document)
        if sort in (beside.REQUIREMENTS, beside.INPUTS):
            return beside.completions(document, self.model(document), byte)
        if sort == beside.CODE:
            return []
        return completing.completions(document, self.model(document), byte)

    def hover(self, params):
        """What is told of a place."""
        document = self.document(params)
        byte = document.byte(params["position"])
        if self.is_model(document):
            found = telling.hover_model(document, byte)
        elif self.sort(document) in (beside.REQUIREMENTS, beside.INPUTS):
            found = beside.hover(document, self.model(document), byte)
        else:
            found = None if checking.is_code(document) else telling.hover(document, self.model(document), byte)
        if not found:
            return None
        text, begin, end = found
        return {"contents": {"kind": "markdown", "value": text}, "range": document.range(begin, end)}

    def key_at(self, params):
        """The text of a request, the name at its place, and the text of the model."""
        document = self.document(params)
        byte = document.byte(params["position"])
        if self.is_model(document):
            return document, telling.use_at(models.places_of(document), byte), document
        if checking.is_code(document):
            return document, None, None
        if self.sort(document) == beside.INPUTS:
            return document, telling.use_at(beside.places_of(document), byte), self.model_document(document)
        return document, telling.use_at(renaming.uses_in(document), byte), self.model_document(document)

    def define(self, params):
        """Where a name is made."""
        document, use, model = self.key_at(params)
        if not use:
            return None
        if use.sort in ("object", "slot"):
            made = models.made_at(model, use.key) if model else None
            return {"uri": model.uri, "range": model.range(made.begin, made.end)} if made else None
        made = next((one for one in renaming.others_with(document, use.key) if one.makes), None)
        return {"uri": document.uri, "range": document.range(made.begin, made.end)} if made and use.key != ("local", -1) else None

    def places(self, document, use, model):
        """All places of a name: pairs of a text and a use."""
        if use.sort not in ("object", "slot"):
            return [] if use.key == ("local", -1) else [(document, one) for one in renaming.others_with(document, use.key)]
        found = [(model, one) for one in models.places_of(model) if one.key == use.key] if model else []
        for one in self.rulesets(model) if model else [document]:
            found += [(one, place) for place in renaming.others_with(one, use.key)]
        return found

    def refer(self, params):
        """Where a name is used."""
        document, use, model = self.key_at(params)
        if not use:
            return []
        made = params.get("context", {}).get("includeDeclaration", True)
        found = [(where, one) for where, one in self.places(document, use, model) if made or not one.makes]
        return [{"uri": where.uri, "range": where.range(one.begin, one.end)} for where, one in found]

    def highlight(self, params):
        """The places of a name in its own text."""
        document, use, _ = self.key_at(params)
        if not use or use.key == ("local", -1):
            return []
        if self.is_model(document) or self.sort(document) == beside.INPUTS:
            places = models.places_of(document) if self.is_model(document) else beside.places_of(document)
            return [{"range": document.range(one.begin, one.end), "kind": 2 + one.makes} for one in places if one.key == use.key]
        found = renaming.others_with(document, use.key)
        return [{"range": document.range(one.begin, one.end), "kind": 3 if one.sets or one.makes else 2} for one in found]

    def prepare(self, params):
        """Whether a name can be another one."""
        document, use, model = self.key_at(params)
        if not use or use.sort not in renaming.RENAMED or use.key == ("local", -1):
            raise Failed(REQUEST_FAILED, "there is no name here that can be renamed")
        if use.sort == "slot":
            if not model:
                raise Failed(REQUEST_FAILED, "there is no model in which the slot is made")
            renaming.check_slot(model, use.key, use.text + "_")
        return {"range": document.range(use.begin, use.end), "placeholder": use.text}

    def rename(self, params):
        """All changes by which a name becomes another one."""
        self.prepare(params)
        document, use, model = self.key_at(params)
        new = params["newName"]
        renaming.wrong_name(new)
        places = self.places(document, use, model)
        if use.sort == "function":
            renaming.check_function(document, use.text, new)
        elif use.sort in ("local", "parameter"):
            renaming.check_local(document, [one for _, one in places], new)
        elif use.sort == "object" and model:
            renaming.check_object(model, use.text, new)
        elif use.sort == "slot":
            renaming.check_slot(model, use.key, new)
        changes = {}
        for where, one in places:
            changes.setdefault(where.uri, []).append({"range": where.range(one.begin, one.end), "newText": new})
        if use.sort in ("object", "slot") and model and model.path:
            for path in sorted(model.path.parent.glob("*.csv")):
                where = self.on_disk(path)
                if not where:
                    continue
                is_long = "slot" in where.text.split("\n", 1)[0].strip().split(",")
                for begin, end in (renaming.rows_with if is_long else beside.headings_with)(where.content, use.key):
                    changes.setdefault(where.uri, []).append({"range": where.range(begin, end), "newText": new})
        return {"changes": changes}

    def symbols(self, params):
        """The rules and functions of a ruleset, or the objects of a model."""
        document = self.document(params)
        if self.is_model(document):
            return self.symbols_of_model(document)
        if self.sort(document) in (beside.REQUIREMENTS, beside.INPUTS):
            return beside.symbols(document)
        if checking.is_code(document):
            return []
        reading = checking.reading_of(document, self.model(document))
        found = []
        for one in reading.ruleset.declarations:
            budget = f"{one.budget.instructions:,} instructions" if one.budget else ""
            name = one.name.encode("latin-1").decode("utf-8", "replace")
            told = {"name": f"{one.rule} {name}" if one.is_rule else name, "kind": 24 if one.is_rule else 12, "detail": budget}
            whole = document.range(one.head.begin, one.end)
            own = document.range(one.name_span.begin, one.name_span.end) if one.name_span else document.range(one.head.begin, one.head.end)
            found.append({**told, "range": whole, "selectionRange": own})
        return found

    def symbols_of_model(self, document):
        """The objects of a model with the slots that they name."""
        model = models.model_of(document)
        found = []
        made = [one for one in models.places_of(document) if one.makes]
        for place in (one for one in made if one.sort == "object"):
            thing = model.object_named(place.text) if not isinstance(model, str) else None
            where = document.range(place.begin, place.end)
            slots = [
                {"name": one.text, "kind": 8, "range": document.range(one.begin, one.end), "selectionRange": document.range(one.begin, one.end)}
                for one in made
                if one.sort == "slot" and one.whose == place.text
            ]
            last = max([place.end, *(one.end for one in made if one.sort == "slot" and one.whose == place.text)])
            whole = document.range(place.begin, last)
            found.append({"name": place.text or "-", "kind": 5, "detail": thing.kind if thing else "", "range": whole, "selectionRange": where, "children": slots})
        return found

    def layout(self, params):
        """A ruleset, and its layout; `None` for it where there is none."""
        document = self.rules_of(params)
        if not document:
            return None, None
        kinds = ("bad token", "bad declaration", "too many")
        if any(one.refusal.endswith(kinds) for one in checking.reading_of(document, self.model(document)).findings):
            return document, None
        try:
            return document, laid_out(document.source.text).encode("latin-1").decode()
        except Same:
            return document, None

    def format(self, params):
        """The layout of a ruleset; nothing where its grammar isn't in order."""
        document, text = self.layout(params)
        return self.rows_changed(document, text) if text is not None and text != document.text else []

    def format_range(self, params):
        """The layout of the declarations in a range."""
        document, text = self.layout(params)
        if text is None:
            return []
        begin, end = (document.byte(params["range"][one]) for one in ("start", "end"))
        old = checking.reading_of(document, self.model(document)).ruleset.declarations
        new = read(Source("", text.encode()), None)
        found = []
        for one, other in zip(old, new.ruleset.declarations, strict=True):
            piece = new.source.content[other.head.begin : other.end].decode()
            if one.head.begin <= end and begin <= one.end and document.source.content[one.head.begin : one.end].decode() != piece:
                found.append({"range": document.range(one.head.begin, one.end), "newText": piece})
        return found

    def hint(self, params):
        """The units of names that are made within a range, and of slots that are set."""
        document = self.rules_of(params)
        if not document:
            return []
        begin, end = (document.byte(params["range"][one]) for one in ("start", "end"))
        return hints.hints_of(document, self.model(document), begin, end)

    def lens(self, params):
        """What each rule costs."""
        document = self.rules_of(params)
        return hints.lenses_of(document, self.model(document)) if document else []

    def sign(self, params):
        """What the call takes at a place."""
        document = self.rules_of(params)
        return hints.signature_at(document, self.model(document), document.byte(params["position"])) if document else None

    def rows_changed(self, document, text):
        """One change, of the rows alone that become others, so that the cursor stays where it was."""
        old, new = document.content, text.encode()
        first = 0
        limit = min(len(old), len(new))
        while first < limit and old[first] == new[first]:
            first += 1
        first = old.rfind(b"\n", 0, first) + 1
        last = 0
        while last < limit - first and old[-1 - last] == new[-1 - last]:
            last += 1
        while last and (old[len(old) - last - 1 : len(old) - last] != b"\n" or new[len(new) - last - 1 : len(new) - last] != b"\n"):
            last -= 1
        if b"\r" in old:
            first = last = 0
        piece = new[first : len(new) - last].decode()
        return [{"range": document.range(first, len(old) - last), "newText": piece}]

    def colour(self, params):
        """What each token is."""
        document = self.document(params)
        words = beside.WORDS if self.sort(document) == beside.REQUIREMENTS else ()
        return {"data": colours.colours_of(document, words) if words or self.sort(document) == beside.RULES else []}


class Judging:
    """A run of `basin check` on texts as they are in the editor, in a thread of its own."""

    def __init__(self, server, program, document, model, inputs):
        self.server, self.program, self.document = server, program, document
        self.version, self.process, self.over = document.version, None, False
        self.texts = {"model.toml": model.content, "policy": document.content}
        known = models.good_model(model)
        findings = [one for weight, one in checking.findings_of(document, known) if weight == checking.FAULT]
        word = "code" if checking.is_code(document) else "rules"
        self.expected = f"basin: {word}: {findings[0].refusal}" if findings else ""
        self.rules = None if checking.is_code(document) else (model.content, document.content, inputs)
        self.lock = threading.Lock()

    def start(self):
        """Begins."""
        threading.Thread(target=self.run, daemon=True).start()

    def end(self):
        """Ends the program, if it runs."""
        with self.lock:
            self.over = True
            if self.process:
                self.process.kill()

    def run(self):
        """Has the rules looked at, runs the program, and tells what comes of it."""
        with suppress(OSError, subprocess.SubprocessError, ValueError, EOFError):
            if not self.expected and self.rules:
                self.look()
        if self.program:
            self.judge()

    def look(self):
        """Has the rules looked at by another process."""
        words = [sys.executable, str(Path(__file__).resolve().parents[1] / "lsp"), "--looks"]
        with self.lock:
            if self.over:
                return
            self.process = subprocess.Popen(words, stdin=subprocess.PIPE, stdout=subprocess.PIPE, stderr=subprocess.DEVNULL)
        found, _ = self.process.communicate(pickle.dumps(self.rules), timeout=LONGEST_RUN)
        with self.lock:
            if self.over:
                return
        told = [(weight, Finding("", Span(begin, end), says, hint, whose=whose)) for weight, begin, end, says, hint, whose in json.loads(found)]
        self.server.wire.waiting.put({"method": "basin/looks", "params": {"told": (self.document, self.version, told)}})

    def judge(self):
        """Runs the program, and tells where it answers otherwise."""
        with suppress(OSError, subprocess.SubprocessError), tempfile.TemporaryDirectory(prefix="basin-lsp-") as folder:
            for name, content in self.texts.items():
                (Path(folder) / name).write_bytes(content)
            words = [self.program, "check", str(Path(folder) / "model.toml"), str(Path(folder) / "policy")]
            with self.lock:
                if self.over:
                    return
                self.process = subprocess.Popen(words, stdin=subprocess.DEVNULL, stdout=subprocess.DEVNULL, stderr=subprocess.PIPE)
            try:
                _, errors = self.process.communicate(timeout=LONGEST_RUN)
            except subprocess.TimeoutExpired:
                self.process.kill()
                self.process.communicate()
                return
            with self.lock:
                if self.over:
                    return
            answer = errors.decode("utf-8", "replace").removesuffix("\n")
            if answer != self.expected:
                self.server.wire.waiting.put(
                    {"method": "basin/differs", "params": {"told": (self.document, self.version, answer, self.expected)}}
                )


ASKED = {
    "initialize": Server.initialize,
    "shutdown": Server.shutdown,
    "textDocument/codeAction": Server.fix,
    "textDocument/completion": Server.complete,
    "textDocument/hover": Server.hover,
    "textDocument/definition": Server.define,
    "textDocument/references": Server.refer,
    "textDocument/documentHighlight": Server.highlight,
    "textDocument/prepareRename": Server.prepare,
    "textDocument/rename": Server.rename,
    "textDocument/documentSymbol": Server.symbols,
    "textDocument/formatting": Server.format,
    "textDocument/rangeFormatting": Server.format_range,
    "textDocument/inlayHint": Server.hint,
    "textDocument/codeLens": Server.lens,
    "textDocument/signatureHelp": Server.sign,
    "textDocument/semanticTokens/full": Server.colour,
}
NOTICED = {
    "textDocument/didOpen": Server.opened,
    "textDocument/didChange": Server.changed,
    "textDocument/didSave": Server.saved,
    "textDocument/didClose": Server.shut,
    "workspace/didChangeWatchedFiles": Server.watched,
    "workspace/didChangeConfiguration": Server.configured,
    "basin/looks": lambda server, params: server.looked(*params["told"]),
    "basin/differs": lambda server, params: server.differs(*params["told"]),
}
