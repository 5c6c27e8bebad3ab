// Runs the extension with a stand-in for `vscode`, and prints what it registers, what becomes of configurations, and what its adapter would start.
//
//   node extension.js FOLDER SOURCE LOG      FOLDER has the extension, SOURCE is the design that is looked at
"use strict";
const Module = require("module");
const path = require("path");

const [extension, source, log] = process.argv.slice(2);
const made = { providers: [], factories: [], shown: [] };
const settings = { adapter: "hgdb-dap", log };
const vscode = {
  debug: {
    registerDebugConfigurationProvider: (type, provider, kind) => made.providers.push([type, provider, kind]),
    registerDebugAdapterDescriptorFactory: (type, factory) => made.factories.push([type, factory]),
  },
  DebugConfigurationProviderTriggerKind: { Initial: 1, Dynamic: 2 },
  DebugAdapterExecutable: class {
    constructor(command, args, options) {
      Object.assign(this, { command, args, options });
    }
  },
  window: {
    activeTextEditor: { document: { languageId: "hgdb", fileName: source } },
    showErrorMessage: (text) => Promise.resolve(made.shown.push(text)),
  },
  workspace: { getConfiguration: (section) => ({ get: (name) => (section === "hgdb" ? settings[name] : undefined) }) },
};
const load = Module._load;
Module._load = (name, ...rest) => (name === "vscode" ? vscode : load(name, ...rest));

const manifest = require(path.join(extension, "package.json"));
const context = { subscriptions: [] };
require(path.join(extension, manifest.main)).activate(context);
const provider = made.providers[0][1];
const folder = { uri: { fsPath: path.dirname(source) } };
// What VS Code does with a configuration: it is resolved, its variables are put, and it is resolved again.
const whole = (given, within) => {
  const first = provider.resolveDebugConfiguration(within, given);
  return provider.resolveDebugConfigurationWithSubstitutedVariables(within, { ...first, source: first.source.replace("${file}", source) });
};
const told = {
  providers: made.providers.map((it) => [it[0], it[2]]),
  factories: made.factories.map((it) => it[0]),
  subscriptions: context.subscriptions.length,
  dynamic: provider.provideDebugConfigurations(),
  empty: whole({}, undefined),
  initial: whole(manifest.contributes.debuggers[0].initialConfigurations[0], folder),
  given: whole({ type: "hgdb", request: "launch", name: "x", mode: "opt", source: "a/b.hg", stimulus: "c.stim", top: "T", parameters: { N: 2 } }, folder),
};
told.started = made.factories[0][1].createDebugAdapterDescriptor({ configuration: told.empty });
told.inFolder = made.factories[0][1].createDebugAdapterDescriptor({ configuration: told.empty, workspaceFolder: { uri: { fsPath: "/there" } } });
vscode.window.activeTextEditor = undefined;
told.none = provider.provideDebugConfigurations();
Promise.resolve(provider.resolveDebugConfiguration(undefined, {})).then((nothing) => {
  console.log(JSON.stringify({ ...told, nothing: nothing === undefined, shown: made.shown }));
});
