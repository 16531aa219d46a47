// Runs a WebAssembly module in node: makes the calls of plan.json, which stands beside this file, on one instance, and prints what
// each comes to, then what the memories and the globals that it exports hold.
//
// Usage: node run.cjs MODULE
"use strict";
const fs = require("fs");
const path = require("path");

const plan = JSON.parse(fs.readFileSync(path.join(__dirname, "plan.json"), "utf8"));
const bytes = fs.readFileSync(process.argv[process.argv.length - 1]);
const view = new DataView(new ArrayBuffer(8));
let hostCalls = 0;
let hostDigest = 0;

function print(...words) {
  fs.writeSync(1, JSON.stringify(words) + "\n");
}

// The value of a type with the bits.
function valueOf([type, bits]) {
  switch (type) {
    case "i32": return Number(BigInt.asIntN(32, BigInt(bits)));
    case "i64": return BigInt.asIntN(64, BigInt(bits));
    case "f32": view.setUint32(0, Number(bits)); return view.getFloat32(0);
    case "f64": view.setBigUint64(0, BigInt(bits)); return view.getFloat64(0);
    default: return null;
  }
}

// The text of a value of a type; all that is no number is one.
function textOf(type, value) {
  switch (type) {
    case "i32": return "i32:" + (value >>> 0);
    case "i64": return "i64:" + BigInt.asUintN(64, value);
    case "f32":
      if (Number.isNaN(value)) return "f32:nan";
      view.setFloat32(0, value);
      return "f32:0x" + view.getUint32(0).toString(16);
    case "f64":
      if (Number.isNaN(value)) return "f64:nan";
      view.setFloat64(0, value);
      return "f64:0x" + view.getBigUint64(0).toString(16);
    default: return type + ":" + (value === null ? "null" : "some");
  }
}

function mix(digest, word) {
  const product = Math.imul(digest ^ word, 0x01000193);
  return (product << 13) | (product >>> 19);
}

function mixText(digest, text) {
  for (let i = 0; i < text.length; i++) digest = mix(digest, text.charCodeAt(i));
  return digest;
}

// A digest of bytes, in which the sign of an engine's own value that is no number doesn't count.
function digestOf(buffer) {
  const words = new Uint32Array(buffer, 0, buffer.byteLength >>> 2);
  let digest = words.length;
  let before = 0;
  for (let i = 0; i < words.length; i++) {
    let word = words[i];
    if (word === 0xffc00000 || (word === 0xfff80000 && before === 0)) word &= 0x7fffffff;
    digest = mix(digest, word);
    before = word;
  }
  return (digest >>> 0).toString(16);
}

// A function of the host: it notes its arguments, and its results depend on nothing else.
function hostFunction(name, parameters, results) {
  return (...values) => {
    const digest = mixText(mixText(0, name), parameters.map((type, i) => textOf(type, values[i])).join());
    hostCalls++;
    hostDigest = mix(hostDigest, digest);
    const small = digest & 7;
    const made = results.map((type) => (type === "i64" ? BigInt(small) : ["i32", "f32", "f64"].includes(type) ? small : null));
    return made.length === 1 ? made[0] : made.length === 0 ? undefined : made;
  };
}

function limitsOf(limits) {
  const number = limits.wide ? BigInt : (n) => n;
  const made = { initial: number(limits.least) };
  if (limits.wide) made.address = made.index = "i64";
  if (limits.most !== null) made.maximum = number(limits.most);
  if (limits.shared) made.shared = true;
  return made;
}

function hostGlobal(type, mutable) {
  return new WebAssembly.Global({ value: type.replace("funcref", "anyfunc"), mutable }, valueOf([type, "0"]));
}

function made(item) {
  switch (item.kind) {
    case "function": return hostFunction(item.module + "." + item.name, item.parameters, item.results);
    case "memory": return new WebAssembly.Memory(limitsOf(item.limits));
    case "table": return new WebAssembly.Table({ ...limitsOf(item.limits), element: item.element.replace("funcref", "anyfunc") });
    case "tag": return new WebAssembly.Tag({ parameters: item.parameters });
    default: return hostGlobal(item.value, item.mutable);
  }
}

// What an error of an engine is, with its message.
function reasonOf(error) {
  if (error instanceof RangeError && /call stack/i.test(error.message)) return ["exhausted", ""];
  return ["trap", error instanceof WebAssembly.RuntimeError ? error.message : "uncaught " + error];
}

function hostText() {
  const text = hostCalls + " " + (hostDigest >>> 0).toString(16);
  hostCalls = hostDigest = 0;
  return text;
}

function lookAt(item, value) {
  if (item.kind === "memory") return digestOf(value.buffer);
  return textOf(item.value, value.value);
}

function run() {
  let module;
  try {
    module = new WebAssembly.Module(bytes);
  } catch (error) {
    return print("refused", error.message);
  }
  const imports = {};
  let instance;
  try {
    for (const item of plan.imports) (imports[item.module] ??= {})[item.name] = made(item);
    instance = new WebAssembly.Instance(module, imports);
  } catch (error) {
    if (error instanceof WebAssembly.LinkError || error instanceof TypeError) return print("unlinked", error.message);
    if (error instanceof RangeError && !/call stack/i.test(error.message)) return print("refused", error.message);
    return print(...reasonOf(error));
  }
  print("instance", hostText());
  for (const call of plan.calls) {
    let answer;
    try {
      const value = instance.exports[call.function](...call.arguments.map(valueOf));
      const values = call.results.length > 1 ? value : [value];
      answer = ["value", call.results.map((type, i) => textOf(type, values[i])).join(" ")];
    } catch (error) {
      answer = reasonOf(error);
    }
    print(...answer, hostText());
  }
  for (const item of plan.looks) print(item.kind, lookAt(item, instance.exports[item.name]));
}

run();
