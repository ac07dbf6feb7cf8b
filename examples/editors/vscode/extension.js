// Starts devdry-lsp for udev rules and files of the hardware database.
const { workspace } = require("vscode");
const { LanguageClient } = require("vscode-languageclient/node");

let client;

exports.activate = () => {
  const settings = workspace.getConfiguration("devdry");
  client = new LanguageClient(
    "devdry",
    "devdry",
    { command: settings.get("path") },
    {
      documentSelector: [{ language: "udev" }, { language: "hwdb" }],
      initializationOptions: { options: settings.get("options") },
    },
  );
  return client.start();
};

exports.deactivate = () => client && client.stop();
