// The extension for VS Code, in node and in a VS Code that is only played: what it registers is what its package.json says, its adapter answers, and
// its commands send what they have to. Each line that is printed is one thing that holds.
const assert = require('assert');
const Module = require('module');
const path = require('path');
const { spawn } = require('child_process');

const folder = path.join(process.env.TOP, 'share/editors/vscode');
const declared = require(path.join(folder, 'package.json')).contributes;
const commands = {}, factories = {}, lines = [], errors = [], asked = [];
const answers = { 'bpfdb/undo': { reply: '1 back' }, 'bpfdb/origin': { lines: [{ text: '-1 r0', source: { path: '/a.c' }, line: 7 }, { text: 'left r1' }] } };
const session = {
    type: 'bpfdb', configuration: { adapter: path.join(process.env.TOP, 'share/bpfdb-dap') },
    async customRequest(name, words) {
        asked.push([name, words]);
        if (!answers[name]) throw new Error('refused Q13: nothing to redo');
        return answers[name];
    },
};
const vscode = {
    DebugAdapterExecutable: class { constructor(command, args) { Object.assign(this, { command, args }); } },
    workspace: { getConfiguration: () => ({ get: () => 'bpfdb-dap' }) },
    window: { showErrorMessage: text => errors.push(text), showInputBox: async () => 'r0' },
    commands: { registerCommand: (name, act) => { commands[name] = act; } },
    debug: {
        registerDebugAdapterDescriptorFactory: (type, factory) => { factories[type] = factory; },
        activeDebugSession: session, activeDebugConsole: { appendLine: text => lines.push(text) },
    },
};
const load = Module._load;
Module._load = (name, ...rest) => name === 'vscode' ? vscode : load(name, ...rest);

async function main() {
    require(path.join(folder, 'extension.js')).activate({ subscriptions: [] });
    assert.deepStrictEqual(Object.keys(commands).sort(), declared.commands.map(one => one.command).sort());
    assert.deepStrictEqual(Object.keys(factories), declared.debuggers.map(one => one.type));
    console.log('registered');
    for (const name of ['bpfdb.undo', 'bpfdb.redo', 'bpfdb.origin']) await commands[name]();
    assert.deepStrictEqual(asked, [['bpfdb/undo', { count: 1 }], ['bpfdb/redo', { count: 1 }], ['bpfdb/origin', { what: 'r0' }]]);
    assert.deepStrictEqual(lines, ['1 back', '-1 r0 (/a.c:7)\nleft r1']);
    assert.deepStrictEqual(errors, ['refused Q13: nothing to redo']);
    console.log('asked');
    assert.strictEqual(factories.bpfdb.createDebugAdapterDescriptor({ configuration: {} }).command, 'bpfdb-dap');
    const { command, args } = factories.bpfdb.createDebugAdapterDescriptor(session);
    const child = spawn(command, args, { stdio: ['pipe', 'pipe', 'inherit'] });
    const text = JSON.stringify({ seq: 1, type: 'request', command: 'initialize', arguments: { adapterID: 'bpfdb' } });
    child.stdin.end(`Content-Length: ${text.length}\r\n\r\n${text}`);
    let said = '';
    for await (const part of child.stdout) said += part;
    assert.strictEqual(JSON.parse(said.split('\r\n\r\n')[1]).body.supportsStepBack, true);
    console.log('answered');
}

main().catch(fault => { console.log(fault.stack); process.exit(1); });
