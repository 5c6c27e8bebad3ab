// Starts `hgdb-dap` for a debug session of type hgdb. All that is shown of a design comes from there.
"use strict";
const fs = require("fs");
const path = require("path");
const vscode = require("vscode");

// The module that stands last in a source: mostly the top, since a module is written before those that use it.
function lastModule(source) {
  const found = [...fs.readFileSync(source, "utf8").matchAll(/\bmodule\s+([A-Za-z]\w*)/g)];
  return found.length ? found[found.length - 1][1] : undefined;
}

// A configuration with what it leaves out by its source. A path that is relative begins at the folder.
function completed(configuration, folder) {
  const made = { ...configuration, source: path.resolve(folder, configuration.source) };
  made.stimulus = path.resolve(folder, made.stimulus || made.source.replace(/\.hg$/, "") + ".stim");
  if (!made.top && fs.existsSync(made.source)) {
    made.top = lastModule(made.source);
  }
  return made;
}

// The design that is looked at, where it is one.
function looked() {
  const editor = vscode.window.activeTextEditor;
  return editor && editor.document.languageId === "hgdb" ? editor.document.fileName : undefined;
}

function begun(source) {
  return { type: "hgdb", request: "launch", name: `hgdb: ${path.basename(source)}`, mode: "keep", source };
}

class Configurations {
  provideDebugConfigurations() {
    const source = looked();
    return source ? [begun(source)] : [];
  }

  // Variables as ${file} are not put yet.
  resolveDebugConfiguration(folder, configuration) {
    const source = configuration.source || looked();
    if (!source) {
      return vscode.window.showErrorMessage("hgdb: open a design, or name one as source in launch.json").then(() => undefined);
    }
    return { ...begun(source), ...configuration, source };
  }

  // They are put.
  resolveDebugConfigurationWithSubstitutedVariables(folder, configuration) {
    return completed(configuration, folder ? folder.uri.fsPath : path.dirname(configuration.source));
  }
}

class Adapters {
  createDebugAdapterDescriptor(session) {
    const settings = vscode.workspace.getConfiguration("hgdb");
    const log = settings.get("log");
    const folder = session.workspaceFolder ? session.workspaceFolder.uri.fsPath : path.dirname(session.configuration.source);
    return new vscode.DebugAdapterExecutable(settings.get("adapter"), log ? ["--log", log] : [], { cwd: folder });
  }
}

function activate(context) {
  const provider = new Configurations();
  context.subscriptions.push(
    vscode.debug.registerDebugConfigurationProvider("hgdb", provider),
    vscode.debug.registerDebugConfigurationProvider("hgdb", provider, vscode.DebugConfigurationProviderTriggerKind.Dynamic),
    vscode.debug.registerDebugAdapterDescriptorFactory("hgdb", new Adapters())
  );
}

module.exports = { activate, deactivate() {} };
