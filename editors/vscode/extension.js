// Starts nullcheck_lsp for the workspace's Java files, and stops it when the editor closes.
const { workspace } = require("vscode");
const { LanguageClient } = require("vscode-languageclient/node");

let client;

exports.activate = () => {
  const settings = workspace.getConfiguration("nullcheck");
  client = new LanguageClient(
    "nullcheck",
    "nullcheck",
    { command: settings.get("command"), args: settings.get("arguments") },
    {
      documentSelector: [{ scheme: "file", language: "java" }],
      initializationOptions: settings.get("options"),
    },
  );
  return client.start();
};

exports.deactivate = () => client?.stop();
