// bpfdb in VS Code: where the adapter is, and the commands that VS Code has none of its own for.
const vscode = require('vscode');

// The adapter's program, as the launch configuration or the settings name it.
function adapter(session) {
    const named = session.configuration.adapter || vscode.workspace.getConfiguration('bpfdb').get('adapter');
    return new vscode.DebugAdapterExecutable(named || 'bpfdb-dap', []);
}

// Sends a request of bpfdb's own, and shows what tell makes of the answer.
async function ask(request, words, tell) {
    const session = vscode.debug.activeDebugSession;
    if (!session || session.type !== 'bpfdb') {
        return;
    }
    try {
        vscode.debug.activeDebugConsole.appendLine(tell(await session.customRequest(request, words)));
    } catch (refusal) {
        vscode.window.showErrorMessage(refusal.message);
    }
}

// A line of an answer on where a value came from, with its place in a form that the console makes a link of.
function shown(line) {
    return line.source && line.source.path ? `${line.text} (${line.source.path}:${line.line})` : line.text;
}

async function origin() {
    const what = await vscode.window.showInputBox({ prompt: 'r0 to r9, ADDRESS:COUNT or an expression; nothing: r0, or the bad address of a fault' });
    if (what !== undefined) {
        await ask('bpfdb/origin', { what }, answer => answer.lines.map(shown).join('\n'));
    }
}

function activate(context) {
    context.subscriptions.push(
        vscode.debug.registerDebugAdapterDescriptorFactory('bpfdb', { createDebugAdapterDescriptor: adapter }),
        vscode.commands.registerCommand('bpfdb.undo', () => ask('bpfdb/undo', { count: 1 }, answer => answer.reply)),
        vscode.commands.registerCommand('bpfdb.redo', () => ask('bpfdb/redo', { count: 1 }, answer => answer.reply)),
        vscode.commands.registerCommand('bpfdb.origin', origin));
}

module.exports = { activate, deactivate() {} };
