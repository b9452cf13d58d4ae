-- A dissector for Wireshark of what it has none of: Type 2 commands, NFC-DEP, LLCP and SNEP over ISO 14443 frames,
-- SDD_REQ with known bits; and, on an interface of link type USER0, Type 5 commands (ISO 15693) and clashes.
--
-- How to load it, and what it shows: tools/README.md. The form of both interfaces' packets: tools/to_pcap.py.
--
-- It takes the place of Wireshark's own dissector of ISO 14443, which it calls for all that this one knows: polling,
-- and ISO-DEP of a Type 4 tag. What a frame is depends on the frames before it. So a packet is read once in the
-- capture's order, and what was found stands in `records` by its number; Wireshark may ask again in any order.

local bits = bit32 or bit

-- Protocols and their fields ------------------------------------------------------------------------------------------
local nfc = Proto("nfc_forum", "NFC frame of a report")
local t2t = Proto("t2t", "NFC Forum Type 2 tag")
local t5t = Proto("t5t", "NFC Forum Type 5 tag")
local nfc_dep = Proto("nfc_dep", "NFC-DEP")
local llcp = Proto("llcp", "Logical Link Control Protocol")
local snep = Proto("snep", "Simple NDEF Exchange Protocol")

local kinds = { [0] = "request", [1] = "answer", [2] = "clash" }
local technologies = { [0] = "NFC-A", [1] = "NFC-V", [2] = "NFC-F" }

local frame_fields = {
  line = ProtoField.uint32("nfc_forum.line", "Line of the script"),
  fate = ProtoField.string("nfc_forum.fate", "Fate"),
  version = ProtoField.uint8("nfc_forum.version", "Version of the header"),
  kind = ProtoField.uint8("nfc_forum.kind", "Kind", base.DEC, kinds),
  technology = ProtoField.uint8("nfc_forum.technology", "Technology", base.DEC, technologies),
  tail = ProtoField.uint8("nfc_forum.tail", "Low bits of the last byte"),
  common = ProtoField.uint16("nfc_forum.common_bits", "Common first bits"),
  data = ProtoField.bytes("nfc_forum.data", "Data"),
  level = ProtoField.uint8("nfc_forum.sdd.level", "Cascade level"),
  known = ProtoField.uint8("nfc_forum.sdd.known_bits", "Known bits"),
  bits = ProtoField.bytes("nfc_forum.sdd.bits", "Bits, the last byte filled with 0"),
}
local groups, severities = expert.group, expert.severity
local fate_experts = {
  damage = ProtoExpert.new("nfc_forum.damaged", "The frame arrived damaged", groups.CHECKSUM, severities.WARN),
  lose = ProtoExpert.new("nfc_forum.lost", "The frame didn't arrive", groups.SEQUENCE, severities.WARN),
  ["break"] = ProtoExpert.new("nfc_forum.broken", "Lost, and the field goes dark", groups.SEQUENCE, severities.ERROR),
}
nfc.fields, nfc.experts = frame_fields, fate_experts

local t2_commands = { [0x30] = "READ", [0xA2] = "WRITE" }
local t2_fields = {
  command = ProtoField.uint8("t2t.command", "Command", base.HEX, t2_commands),
  block = ProtoField.uint8("t2t.block", "Block"),
  data = ProtoField.bytes("t2t.data", "Data"),
  answer = ProtoField.uint8("t2t.answer", "Answer of four bits", base.HEX),
}
t2t.fields = t2_fields

local t5_commands = {
  [0x01] = "INVENTORY", [0x02] = "STAY QUIET", [0x20] = "READ SINGLE BLOCK", [0x21] = "WRITE SINGLE BLOCK",
  [0x22] = "LOCK SINGLE BLOCK", [0x23] = "READ MULTIPLE BLOCKS", [0x25] = "SELECT", [0x26] = "RESET TO READY",
  [0x2B] = "GET SYSTEM INFORMATION", [0x30] = "EXTENDED READ SINGLE BLOCK", [0x31] = "EXTENDED WRITE SINGLE BLOCK",
}
local t5_errors = { [0x0F] = "no reason given", [0x10] = "no such block", [0x12] = "the block is locked" }
local t5_fields = {
  flags = ProtoField.uint8("t5t.flags", "Flags", base.HEX),
  inventory = ProtoField.bool("t5t.flags.inventory", "Inventory", 8, nil, 0x04),
  selected = ProtoField.bool("t5t.flags.selected", "To the selected tag, or AFI", 8, nil, 0x10),
  addressed = ProtoField.bool("t5t.flags.addressed", "Addressed, or one slot", 8, nil, 0x20),
  option = ProtoField.bool("t5t.flags.option", "Option", 8, nil, 0x40),
  command = ProtoField.uint8("t5t.command", "Command", base.HEX, t5_commands),
  uid = ProtoField.string("t5t.uid", "Identifier"),
  mask_length = ProtoField.uint8("t5t.mask_length", "Bits of the mask"),
  mask = ProtoField.bytes("t5t.mask", "Mask, low byte first"),
  block = ProtoField.uint16("t5t.block", "Block"),
  count = ProtoField.uint8("t5t.count", "Blocks less 1"),
  data = ProtoField.bytes("t5t.data", "Data"),
  answer = ProtoField.uint8("t5t.answer", "Flags of the answer", base.HEX, { [0] = "done", [1] = "error" }),
  error = ProtoField.uint8("t5t.error", "Error", base.HEX, t5_errors),
  dsfid = ProtoField.uint8("t5t.dsfid", "DSFID", base.HEX),
}
t5t.fields = t5_fields

local dep_commands = {
  [0xD400] = "ATR_REQ", [0xD404] = "PSL_REQ", [0xD406] = "DEP_REQ", [0xD408] = "DSL_REQ", [0xD40A] = "RLS_REQ",
  [0xD501] = "ATR_RES", [0xD505] = "PSL_RES", [0xD507] = "DEP_RES", [0xD509] = "DSL_RES", [0xD50B] = "RLS_RES",
}
local dep_types = { [0] = "information", [2] = "acknowledgement", [4] = "supervisory" }
local dep_frame_lengths = { [0] = "64 bytes", [1] = "128 bytes", [2] = "192 bytes", [3] = "254 bytes" }
local dep_fields = {
  start = ProtoField.uint8("nfc_dep.start", "Start byte", base.HEX),
  length = ProtoField.uint8("nfc_dep.length", "Length"),
  command = ProtoField.uint16("nfc_dep.command", "Command", base.HEX, dep_commands),
  nfcid3 = ProtoField.bytes("nfc_dep.nfcid3", "NFCID3"),
  did = ProtoField.uint8("nfc_dep.did", "DID"),
  rates = ProtoField.bytes("nfc_dep.rates", "Bit rates that are taken, BS and BR"),
  timeout = ProtoField.uint8("nfc_dep.to", "Code of the waiting time", base.DEC, nil, 0x0F),
  frame_length = ProtoField.uint8("nfc_dep.lr", "Frames of up to", base.DEC, dep_frame_lengths, 0x30),
  type = ProtoField.uint8("nfc_dep.type", "Type", base.DEC, dep_types, 0xE0),
  more = ProtoField.bool("nfc_dep.more", "More information follows", 8, nil, 0x10),
  nack = ProtoField.bool("nfc_dep.nack", "NACK", 8, nil, 0x10),
  is_timeout = ProtoField.bool("nfc_dep.timeout", "TIMEOUT, else ATTENTION", 8, nil, 0x10),
  pni = ProtoField.uint8("nfc_dep.pni", "PNI", base.DEC, nil, 0x03),
  extension = ProtoField.uint8("nfc_dep.rtox", "Times the waiting time"),
  again = ProtoField.bool("nfc_dep.again", "The last information again"),
  data = ProtoField.bytes("nfc_dep.data", "Piece of a payload"),
}
nfc_dep.fields = dep_fields

local SYMM, PAX, AGF, UI, CONNECT, DISC, CC, DM, FRMR, SNL, I_PDU, RR, RNR = 0, 1, 2, 3, 4, 5, 6, 7, 8, 9, 12, 13, 14
local pdu_types = {
  [SYMM] = "SYMM", [PAX] = "PAX", [AGF] = "AGF", [UI] = "UI", [CONNECT] = "CONNECT", [DISC] = "DISC", [CC] = "CC",
  [DM] = "DM", [FRMR] = "FRMR", [SNL] = "SNL", [I_PDU] = "I", [RR] = "RR", [RNR] = "RNR",
}
local VERSION, MIUX, WKS, LTO, RW, SN, OPT, SDREQ, SDRES = 1, 2, 3, 4, 5, 6, 7, 8, 9
local parameter_types = {
  [VERSION] = "VERSION", [MIUX] = "MIUX", [WKS] = "WKS", [LTO] = "LTO", [RW] = "RW", [SN] = "SN", [OPT] = "OPT",
  [SDREQ] = "SDREQ", [SDRES] = "SDRES",
}
local parameter_lengths = { [VERSION] = 1, [MIUX] = 2, [WKS] = 2, [LTO] = 1, [RW] = 1, [OPT] = 1, [SDRES] = 2 }
local llcp_fields = {
  dsap = ProtoField.uint16("llcp.dsap", "DSAP", base.DEC, nil, 0xFC00),
  ptype = ProtoField.uint16("llcp.ptype", "PTYPE", base.DEC, pdu_types, 0x03C0),
  ssap = ProtoField.uint16("llcp.ssap", "SSAP", base.DEC, nil, 0x003F),
  ns = ProtoField.uint8("llcp.ns", "N(S)", base.DEC, nil, 0xF0),
  nr = ProtoField.uint8("llcp.nr", "N(R)", base.DEC, nil, 0x0F),
  information = ProtoField.bytes("llcp.information", "Information"),
  reason = ProtoField.uint8("llcp.reason", "Reason", base.HEX),
  inner = ProtoField.uint16("llcp.agf.length", "Length of a PDU inside"),
  flags = ProtoField.uint8("llcp.frmr.flags", "Flags W, I, R, S", base.HEX, nil, 0xF0),
  rejected = ProtoField.uint8("llcp.frmr.ptype", "PTYPE that is rejected", base.DEC, pdu_types, 0x0F),
  sequence = ProtoField.uint8("llcp.frmr.sequence", "Its sequence field", base.HEX),
  vs = ProtoField.uint8("llcp.frmr.vs", "V(S)", base.DEC, nil, 0xF0),
  vr = ProtoField.uint8("llcp.frmr.vr", "V(R)", base.DEC, nil, 0x0F),
  vsa = ProtoField.uint8("llcp.frmr.vsa", "V(SA)", base.DEC, nil, 0xF0),
  vra = ProtoField.uint8("llcp.frmr.vra", "V(RA)", base.DEC, nil, 0x0F),
  magic = ProtoField.bytes("llcp.magic", "Magic number"),
  parameter = ProtoField.uint8("llcp.parameter", "Parameter", base.DEC, parameter_types),
  parameter_length = ProtoField.uint8("llcp.parameter.length", "Length"),
  version = ProtoField.uint8("llcp.version", "Version, major and minor", base.HEX),
  miu = ProtoField.uint16("llcp.miu", "MIU"),
  services = ProtoField.uint16("llcp.wks", "Well-known services", base.HEX),
  timeout = ProtoField.uint16("llcp.lto", "Link timeout in ms"),
  window = ProtoField.uint8("llcp.rw", "RW", base.DEC, nil, 0x0F),
  name = ProtoField.string("llcp.sn", "Service name"),
  options = ProtoField.uint8("llcp.opt", "Options", base.HEX),
  transaction = ProtoField.uint8("llcp.tid", "TID"),
  sap = ProtoField.uint8("llcp.sdres.sap", "SAP", base.DEC, nil, 0x3F),
  value = ProtoField.bytes("llcp.parameter.value", "Value"),
}
local no_pdu = ProtoExpert.new("llcp.malformed", "No well-formed PDU", groups.MALFORMED, severities.ERROR)
llcp.fields, llcp.experts = llcp_fields, { no_pdu }

local snep_codes = {
  [0x00] = "CONTINUE", [0x01] = "GET", [0x02] = "PUT", [0x7F] = "REJECT", [0x80] = "CONTINUE", [0x81] = "SUCCESS",
  [0xC0] = "NOT FOUND", [0xC1] = "EXCESS DATA", [0xC2] = "BAD REQUEST", [0xE0] = "NOT IMPLEMENTED",
  [0xE1] = "UNSUPPORTED VERSION", [0xFF] = "REJECT",
}
local snep_fields = {
  version = ProtoField.uint8("snep.version", "Version, major and minor", base.HEX),
  code = ProtoField.uint8("snep.code", "Code", base.HEX, snep_codes),
  length = ProtoField.uint32("snep.length", "Length"),
  acceptable = ProtoField.uint32("snep.acceptable_length", "Acceptable length"),
  information = ProtoField.bytes("snep.information", "Information"),
  more = ProtoField.bytes("snep.fragment", "More of a message"),
  missing = ProtoField.uint32("snep.missing", "Bytes to come"),
}
snep.fields = snep_fields

-- What is kept between packets ----------------------------------------------------------------------------------------
local records -- what was found of each packet, by its number
local air -- what the frames up to now leave: whether a card of ISO-DEP is activated, the last requests, the link

local function new_link()
  return { ends = { [true] = {}, [false] = {} }, messages = {} }
end

local function dark()
  air = { is_card = false, leaves = false, asked = nil, link = new_link() }
end

function nfc.init()
  records = {}
  dark()
end

-- Small words ---------------------------------------------------------------------------------------------------------
local function named(names, value)
  return names[value] or string.format("%02Xh", value)
end

-- The bytes of an identifier that stands low byte first, as a report shows it.
local function reversed(range)
  return (tostring(range:bytes()):reverse():gsub("(.)(.)", "%2%1"))
end

local function crc_a(bytes)
  local crc = 0x6363
  for place = 0, bytes:len() - 1 do
    crc = bits.bxor(crc, bytes:get_index(place))
    for _ = 1, 8 do
      crc = bits.bxor(bits.rshift(crc, 1), crc % 2 == 1 and 0x8408 or 0)
    end
  end
  return crc
end

-- Adds fields, each with its place and its length.
local function add_all(item, range, fields)
  for _, field in ipairs(fields) do
    item:add(field[1], range(field[2], field[3]))
  end
end

local function shown(pinfo, protocol, from_reader, text)
  pinfo.cols.protocol = protocol
  pinfo.cols.src = from_reader and "PCD" or "PICC"
  pinfo.cols.dst = from_reader and "PICC" or "PCD"
  pinfo.cols.info = text
end

-- The fate, as the packet's comment tells it --------------------------------------------------------------------------
local comment_field = Field.new("frame.comment")

local function show_fate(tree)
  local comment = comment_field()
  local line, fate = string.match(comment and tostring(comment.value) or "", "^line (%d+), (%l+):")
  if not fate then
    return
  end
  local item = tree:add(nfc, string.format("Of a report: line %s, %s", line, fate)):set_generated()
  item:add(frame_fields.line, tonumber(line)):set_generated()
  local told = item:add(frame_fields.fate, fate):set_generated()
  if fate_experts[fate] then
    told:add_proto_expert_info(fate_experts[fate])
  end
end

-- SNEP ----------------------------------------------------------------------------------------------------------------
local SNEP_HEADER, SNEP_SAP = 6, 4

-- How many bytes of a message are still to come behind a unit, and whether the unit is more of an earlier message.
local function snep_step(missing, up, range)
  if (missing[up] or 0) > 0 then
    missing[up] = math.max(0, missing[up] - range:len())
    return { more = true, left = missing[up] }
  end
  if range:len() < SNEP_HEADER then
    return { more = false, left = 0 }
  end
  missing[up] = math.max(0, range(2, 4):uint() - (range:len() - SNEP_HEADER))
  local code = range(1, 1):uint()
  if code ~= 0x00 and code ~= 0x80 then
    missing[not up] = 0
  end
  return { more = false, left = missing[up] }
end

local function snep_header(range, item)
  local code = range(1, 1):uint()
  add_all(item, range, { { snep_fields.version, 0, 1 }, { snep_fields.code, 1, 1 }, { snep_fields.length, 2, 4 } })
  local behind = SNEP_HEADER
  if code == 0x01 and range:len() >= SNEP_HEADER + 4 then
    item:add(snep_fields.acceptable, range(SNEP_HEADER, 4))
    behind = SNEP_HEADER + 4
  end
  if range:len() > behind then
    item:add(snep_fields.information, range(behind))
  end
  return string.format("SNEP %s, %d bytes", named(snep_codes, code), range(2, 4):uint())
end

local function dissect_snep(range, tree, found)
  local item = tree:add(snep, range)
  if not found.more and range:len() < SNEP_HEADER then
    item:append_text(", without a whole header")
    return "SNEP without a whole header"
  end
  local text = found.more and "SNEP, more" or snep_header(range, item)
  if found.more then item:add(snep_fields.more, range) end
  if found.left > 0 then
    item:add(snep_fields.missing, found.left):set_generated()
  end
  item:append_text(", " .. text)
  return text
end

-- LLCP ----------------------------------------------------------------------------------------------------------------
-- Of each parameter the field of its value, and how the value's number is told where that isn't the number itself.
local parameter_fields = {
  [VERSION] = { llcp_fields.version },
  [MIUX] = { llcp_fields.miu, function(number) return 128 + number % 0x800 end },
  [WKS] = { llcp_fields.services },
  [LTO] = { llcp_fields.timeout, function(number) return 10 * number end },
  [RW] = { llcp_fields.window },
  [SN] = { llcp_fields.name },
  [OPT] = { llcp_fields.options },
}

local function show_parameter(kind, item, value)
  local known = parameter_fields[kind]
  if known and known[2] then
    item:add(known[1], value, known[2](value:uint()))
  elseif kind == SDREQ or kind == SDRES then
    item:add(llcp_fields.transaction, value(0, 1))
    if value:len() > 1 then
      item:add(kind == SDREQ and llcp_fields.name or llcp_fields.sap, value(1))
    end
  else
    item:add(known and known[1] or llcp_fields.value, value)
  end
end

local function dissect_parameters(range, place, tree)
  while place < range:len() do
    local length = place + 1 < range:len() and range(place + 1, 1):uint() or nil
    if not length or place + 2 + length > range:len() then
      tree:add_proto_expert_info(no_pdu, "A parameter without its length or its value")
      return
    end
    local kind = range(place, 1):uint()
    local item = tree:add(llcp_fields.parameter, range(place, 1))
    item:set_len(2 + length)
    item:add(llcp_fields.parameter_length, range(place + 1, 1))
    if (parameter_lengths[kind] or length) ~= length or (kind == SDREQ and length == 0) then
      tree:add_proto_expert_info(no_pdu, "A parameter of another length than it has")
    elseif length > 0 then
      show_parameter(kind, item, range(place + 2, length))
    end
    place = place + 2 + length
  end
end

local reject_fields = {
  { llcp_fields.flags, 2, 1 }, { llcp_fields.rejected, 2, 1 }, { llcp_fields.sequence, 3, 1 },
  { llcp_fields.vs, 4, 1 }, { llcp_fields.vr, 4, 1 }, { llcp_fields.vsa, 5, 1 }, { llcp_fields.vra, 5, 1 },
}

-- The connection of two access points, however they are named.
local function connection(dsap, ssap)
  return math.min(dsap, ssap) .. "-" .. math.max(dsap, ssap)
end

-- What is found of the next unit of SNEP in this packet: at the first look it is counted, then it stands in the record.
local function unit_found(record, dsap, ssap, range)
  record.unit = record.unit + 1
  if not record.units[record.unit] then
    local messages, key = record.link.messages, connection(dsap, ssap)
    messages[key] = messages[key] or {}
    record.units[record.unit] = snep_step(messages[key], record.up, range)
  end
  return record.units[record.unit]
end

local function dissect_information(range, item, tree, record, dsap, ssap)
  add_all(item, range, { { llcp_fields.ns, 2, 1 }, { llcp_fields.nr, 2, 1 } })
  local numbers = string.format(", N(S) %d, N(R) %d", range(2, 1):bitfield(0, 4), range(2, 1):bitfield(4, 4))
  if range:len() == 3 then
    return numbers
  end
  item:add(llcp_fields.information, range(3))
  if dsap ~= SNEP_SAP and ssap ~= SNEP_SAP then
    return numbers
  end
  return numbers .. ", " .. dissect_snep(range(3), tree, unit_found(record, dsap, ssap, range(3)))
end

local dissect_pdu

local function dissect_aggregate(range, item, tree, record)
  local place, texts = 2, {}
  while place < range:len() do
    local length = place + 1 < range:len() and range(place, 2):uint() or nil
    if not length or length < 2 or place + 2 + length > range:len() then
      item:add_proto_expert_info(no_pdu, "An AGF with a length that passes its end")
      break
    end
    item:add(llcp_fields.inner, range(place, 2))
    texts[#texts + 1] = dissect_pdu(range(place + 2, length), item, tree, record, true)
    place = place + 2 + length
  end
  return ": " .. table.concat(texts, "; ")
end

local least_lengths = { [DM] = 3, [FRMR] = 6, [I_PDU] = 3, [RR] = 3, [RNR] = 3 }
local ends_connection = { [CONNECT] = true, [CC] = true, [DISC] = true, [DM] = true, [FRMR] = true }

-- What stands behind the header, and how it is told.
local function dissect_rest(kind, range, item, tree, record, dsap, ssap)
  if kind == AGF then
    return dissect_aggregate(range, item, tree, record)
  elseif kind == CONNECT or kind == CC or kind == SNL or kind == PAX then
    dissect_parameters(range, 2, item)
  elseif kind == UI and range:len() > 2 then
    item:add(llcp_fields.information, range(2))
  elseif kind == DM then
    item:add(llcp_fields.reason, range(2, 1))
  elseif kind == FRMR then
    add_all(item, range, reject_fields)
  elseif kind == RR or kind == RNR then
    item:add(llcp_fields.nr, range(2, 1))
    return string.format(", N(R) %d", range(2, 1):bitfield(4, 4))
  elseif kind == I_PDU then
    return dissect_information(range, item, tree, record, dsap, ssap)
  end
  return ""
end

function dissect_pdu(range, parent, tree, record, is_inner)
  local item = parent:add(llcp, range)
  if range:len() < 2 then
    item:add_proto_expert_info(no_pdu)
    return "LLCP, too short"
  end
  local dsap, kind, ssap = range(0, 1):bitfield(0, 6), range(0, 2):bitfield(6, 4), range(1, 1):bitfield(2, 6)
  add_all(item, range, { { llcp_fields.dsap, 0, 2 }, { llcp_fields.ptype, 0, 2 }, { llcp_fields.ssap, 0, 2 } })
  if not pdu_types[kind] or range:len() < (least_lengths[kind] or 2) or (is_inner and kind == AGF) then
    item:add_proto_expert_info(no_pdu)
    return "LLCP, no PDU"
  end
  if ends_connection[kind] and record.is_new then
    record.link.messages[connection(dsap, ssap)] = nil
  end
  local text = pdu_types[kind] .. dissect_rest(kind, range, item, tree, record, dsap, ssap)
  item:append_text(string.format(", %s, from %d to %d", pdu_types[kind], ssap, dsap))
  return text
end

-- NFC-DEP -------------------------------------------------------------------------------------------------------------
local DEP_START = 0xF0
local ATR_REQ, ATR_RES, DEP_REQ, DEP_RES = 0xD400, 0xD501, 0xD406, 0xD507

local function is_dep(range, from_reader)
  return range:len() >= 4 and range(0, 1):uint() == DEP_START and range(1, 1):uint() == range:len() - 1
    and dep_commands[range(2, 2):uint()] ~= nil and range(2, 1):uint() == (from_reader and 0xD4 or 0xD5)
end

-- What a frame does to the link, at the first look: whether it comes again, and the payload that it completes.
local function dep_step(range, from_reader, record)
  local command = range(2, 2):uint()
  if command == ATR_REQ then air.link = new_link() end
  record.link, record.up, record.units, record.is_new = air.link, not from_reader, {}, true
  local is_exchange = command == DEP_REQ or command == DEP_RES
  if not is_exchange or range:len() < 5 or range(4, 1):bitfield(0, 3) ~= 0 then
    return
  end
  local side, all = air.link.ends[record.up], range(4):bytes()
  if side.last and tostring(side.last) == tostring(all) then
    record.again, record.is_new = true, false
    record.payload, record.is_joined, record.units = side.payload, side.is_joined, side.units
    return
  end
  local whole = range:len() > 5 and range(5):bytes() or ByteArray.new()
  record.is_joined = side.chain ~= nil
  whole = side.chain and side.chain .. whole or whole
  local has_more = range(4, 1):bitfield(3, 1) == 1
  side.chain = has_more and whole or nil
  record.payload = not has_more and whole or nil
  side.last, side.payload, side.is_joined, side.units = all, record.payload, record.is_joined, record.units
end

local function dissect_attributes(range, item, command)
  local fixed = command == ATR_RES and 19 or 18
  if range:len() < fixed then
    return
  end
  add_all(item, range, { { dep_fields.nfcid3, 4, 10 }, { dep_fields.did, 14, 1 }, { dep_fields.rates, 15, 2 } })
  if command == ATR_RES then
    item:add(dep_fields.timeout, range(17, 1))
  end
  item:add(dep_fields.frame_length, range(fixed - 1, 1))
  if range:len() >= fixed + 3 and range(fixed, 3):string() == "Ffm" then
    local general = item:add(llcp, range(fixed))
    general:append_text(", general bytes")
    general:add(llcp_fields.magic, range(fixed, 3))
    dissect_parameters(range, fixed + 3, general)
  end
end

local function dissect_exchange(range, item, tree, record)
  local control = range(4, 1)
  local kind, flag, pni = control:bitfield(0, 3), control:bitfield(3, 1), control:bitfield(6, 2)
  item:add(dep_fields.type, control)
  if kind == 4 then
    item:add(dep_fields.is_timeout, control)
    if range:len() > 5 then
      item:add(dep_fields.extension, range(5, 1))
    end
    return flag == 1 and " TIMEOUT" or " ATTENTION"
  end
  item:add(kind == 2 and dep_fields.nack or dep_fields.more, control)
  item:add(dep_fields.pni, control)
  if kind == 2 then
    return string.format(" %s, PNI %d", flag == 1 and "NACK" or "ACK", pni)
  end
  item:add(dep_fields.again, record.again or false):set_generated()
  local text = string.format(" PNI %d%s%s", pni, flag == 1 and ", chained" or "", record.again and ", again" or "")
  if not record.payload or record.payload:len() == 0 then
    if range:len() > 5 then item:add(dep_fields.data, range(5)) end
    return text
  end
  local payload = record.is_joined and record.payload:tvb("Payload of NFC-DEP"):range() or range(5)
  return text .. ": " .. dissect_pdu(payload, tree, tree, record, false)
end

local function dissect_dep(range, pinfo, tree, record)
  local item = tree:add(nfc_dep, range)
  local command = range(2, 2):uint()
  add_all(item, range, { { dep_fields.start, 0, 1 }, { dep_fields.length, 1, 1 }, { dep_fields.command, 2, 2 } })
  local text, protocol = dep_commands[command], "NFC-DEP"
  record.unit = 0
  if command == ATR_REQ or command == ATR_RES then
    dissect_attributes(range, item, command)
  elseif (command == DEP_REQ or command == DEP_RES) and range:len() > 4 then
    text = text .. dissect_exchange(range, item, tree, record)
    protocol = record.unit > 0 and "SNEP" or record.payload and "LLCP" or protocol
  end
  record.is_new = false
  item:append_text(", " .. dep_commands[command])
  shown(pinfo, protocol, not record.up, text)
end

-- Type 2 tags ---------------------------------------------------------------------------------------------------------
local READ, WRITE, ACKNOWLEDGEMENT = 0x30, 0xA2, 0x0A
local t2_lengths = { [READ] = 2, [WRITE] = 6 }

local function is_t2_request(range)
  return range:len() > 0 and t2_lengths[range(0, 1):uint()] == range:len()
end

local function dissect_t2_request(range, pinfo, tree)
  local item, command, block = tree:add(t2t, range), range(0, 1):uint(), range(1, 1):uint()
  add_all(item, range, { { t2_fields.command, 0, 1 }, { t2_fields.block, 1, 1 } })
  if command == WRITE then
    item:add(t2_fields.data, range(2))
  end
  shown(pinfo, "Type 2", true, string.format("%s of block %d", t2_commands[command], block))
end

local function dissect_t2_answer(range, pinfo, tree)
  local item = tree:add(t2t, range)
  if range:len() ~= 1 then
    item:add(t2_fields.data, range)
    shown(pinfo, "Type 2", false, string.format("%d bytes of blocks", range:len()))
    return
  end
  local told = range(0, 1):uint() == ACKNOWLEDGEMENT and "ACK" or "NAK"
  item:add(t2_fields.answer, range(0, 1)):append_text(", " .. told)
  shown(pinfo, "Type 2", false, told)
end

-- Anticollision with known bits ---------------------------------------------------------------------------------------
local sdd_levels = { [0x93] = 1, [0x95] = 2, [0x97] = 3 }
local NO_BITS, SELECTING = 0x20, 0x70

-- How many bits of its level an SDD_REQ gives; nothing where it is none. Wireshark itself knows one without such bits.
local function known_bits(range)
  if range:len() < 2 or not sdd_levels[range(0, 1):uint()] then
    return nil
  end
  local whole, more, value = range(1, 1):bitfield(0, 4), range(1, 1):bitfield(4, 4), range(1, 1):uint()
  if value == NO_BITS or value == SELECTING or whole < 2 or whole > 6 or more > 7 then
    return nil
  end
  return 8 * (whole - 2) + more
end

local function dissect_sdd(range, pinfo, tree, record)
  local item = tree:add(nfc, range, "NFC-A anticollision")
  if record.kind == "sdd_res" then
    item:add(frame_fields.bits, range)
    shown(pinfo, "NFC-A", false, string.format("SDD_RES, the other %d bits", 40 - record.known))
    return
  end
  local level, known = sdd_levels[range(0, 1):uint()], known_bits(range)
  item:add(frame_fields.level, range(0, 1), level)
  item:add(frame_fields.known, range(1, 1), known)
  if range:len() > 2 then
    item:add(frame_fields.bits, range(2))
  end
  shown(pinfo, "NFC-A", true, string.format("SDD_REQ of level %d, %d bits known", level, known))
end

-- Frames of NFC-A -----------------------------------------------------------------------------------------------------
local FROM_CARD, FROM_READER, FIELD_OFF, FIELD_ON, FROM_CARD_DROPPED, FROM_READER_DROPPED =
  0xFF, 0xFE, 0xFD, 0xFC, 0xFB, 0xFA
local HEADER_LENGTH, RATS, DESELECT = 4, 0xE0, 0xC2

local encapsulations = DissectorTable.get("wtap_encap")
local iso14443 = encapsulations:get_dissector(wtap_encaps.ISO14443)

-- What is malformed there Wireshark shows by itself. It is no error of this script.
local function call_iso14443(tvb, pinfo, tree)
  pcall(iso14443.call, iso14443, tvb, pinfo, tree)
end

-- A frame without its check bytes. Where the header doesn't say that they were dropped, right ones are taken away.
local function without_crc(range, event)
  local dropped, length = event == FROM_CARD_DROPPED or event == FROM_READER_DROPPED, range:len()
  if dropped or length < 3 or range(length - 2, 2):le_uint() ~= crc_a(range(0, length - 2):bytes()) then
    return range
  end
  return range(0, length - 2)
end

-- What a request to an activated card of ISO-DEP is: a block, which may look like any other frame.
local function block_kind(range)
  air.leaves = range(0, 1):uint() == DESELECT
  return range:len() == 1 and "short_block" or "iso14443"
end

-- What a request is, by its bytes and by what is selected. `iso14443` is all that Wireshark's own dissector knows.
local function request_kind(range)
  local first = range(0, 1):uint()
  if air.is_card then
    return block_kind(range)
  elseif first == RATS and range:len() == 2 then
    return "rats"
  elseif known_bits(range) then
    return "sdd_req"
  elseif sdd_levels[first] then
    return range:len() == 7 and "sel_req" or "iso14443"
  elseif is_dep(range, true) then
    return "dep"
  end
  return is_t2_request(range) and "t2_req" or "iso14443"
end

local answer_kinds = { sdd_req = "sdd_res", t2_req = "t2_res" }

local function answer_kind(range, asked)
  air.is_card = asked.kind == "rats" or air.is_card and not air.leaves
  return answer_kinds[asked.kind] or is_dep(range, false) and "dep" or "iso14443"
end

-- The record of a frame, at the first look.
local function find(range, from_reader)
  local record = { kind = "iso14443" }
  if from_reader then
    record.kind, record.known = request_kind(range), known_bits(range)
    air.asked = record
  elseif air.asked then
    record.kind, record.known = answer_kind(range, air.asked), air.asked.known
  end
  if record.kind == "dep" then
    dep_step(range, from_reader, record)
  end
  return record
end

-- A block of one byte whose check bytes were dropped looks like a short frame. With them Wireshark reads it as a block.
local function call_with_crc(range, pinfo, tree)
  local crc = crc_a(range:bytes())
  local text = string.format("00FE0003%s%02X%02X", tostring(range:bytes()), crc % 256, math.floor(crc / 256))
  call_iso14443(ByteArray.new(text):tvb("Frame with its check bytes"), pinfo, tree)
end

local dissectors = {
  dep = dissect_dep, t2_req = dissect_t2_request, t2_res = dissect_t2_answer,
  sdd_req = dissect_sdd, sdd_res = dissect_sdd,
}

function nfc.dissector(tvb, pinfo, tree)
  show_fate(tree)
  local event = tvb:len() > HEADER_LENGTH and tvb(1, 1):uint() or FIELD_OFF
  if event < FROM_READER_DROPPED or event == FIELD_OFF or event == FIELD_ON then
    if not pinfo.visited then
      dark()
    end
    call_iso14443(tvb, pinfo, tree)
    return
  end
  local range = without_crc(tvb(HEADER_LENGTH), event)
  if not records[pinfo.number] then
    records[pinfo.number] = find(range, event == FROM_READER or event == FROM_READER_DROPPED)
  end
  local record = records[pinfo.number]
  if dissectors[record.kind] then
    dissectors[record.kind](range, pinfo, tree, record)
  elseif record.kind == "short_block" and tvb:len() == HEADER_LENGTH + 1 then
    call_with_crc(range, pinfo, tree)
  else
    call_iso14443(tvb, pinfo, tree)
  end
end

-- Type 5 tags, and clashes --------------------------------------------------------------------------------------------
local other = Proto("nfc_forum_other", "NFC-V frame, or a clash")

local INVENTORY, IDENTIFIER_LENGTH = 0x01, 8
local REQUEST, ANSWER, CLASH = 0, 1, 2
-- How many bytes the block's number has in each command that has one.
local number_widths = { [0x20] = 1, [0x21] = 1, [0x22] = 1, [0x23] = 1, [0x30] = 2, [0x31] = 2 }

local function dissect_mask(range, item)
  if range:len() < 3 then
    return ""
  end
  item:add(t5_fields.mask_length, range(2, 1))
  if range:len() > 3 then
    item:add(t5_fields.mask, range(3))
  end
  return string.format(", mask of %d bits", range(2, 1):uint())
end

-- The block, or the blocks, of a request, and its data.
local function dissect_block(range, place, item, command)
  local width = number_widths[command]
  if not width or range:len() < place + width then
    return ""
  end
  local number, behind = range(place, width), place + width
  item:add_le(t5_fields.block, number)
  if range:len() > behind then
    item:add(command == 0x23 and t5_fields.count or t5_fields.data, range(behind, command == 0x23 and 1 or nil))
  end
  return string.format(" %d", number:le_uint())
end

local t5_flags = {
  { t5_fields.inventory, 0, 1 }, { t5_fields.selected, 0, 1 }, { t5_fields.addressed, 0, 1 },
  { t5_fields.option, 0, 1 },
}

local function dissect_t5_request(range, pinfo, tree)
  local item = tree:add(t5t, range)
  local flags, command = range(0, 1), range(1, 1):uint()
  add_all(item:add(t5_fields.flags, flags), range, t5_flags)
  item:add(t5_fields.command, range(1, 1))
  local text = named(t5_commands, command)
  if command == INVENTORY then
    shown(pinfo, "Type 5", true, text .. dissect_mask(range, item))
    return
  end
  local place = 2
  if flags:bitfield(2, 1) == 1 and range:len() >= 2 + IDENTIFIER_LENGTH then
    local uid = range(2, IDENTIFIER_LENGTH)
    item:add(t5_fields.uid, uid, reversed(uid))
    place = 2 + IDENTIFIER_LENGTH
  end
  shown(pinfo, "Type 5", true, text .. dissect_block(range, place, item, command))
end

local function dissect_t5_answer(range, pinfo, tree, asked)
  local item = tree:add(t5t, range)
  item:add(t5_fields.answer, range(0, 1))
  local text = "done"
  if range(0, 1):uint() ~= 0 and range:len() > 1 then
    item:add(t5_fields.error, range(1, 1))
    text = "error " .. named(t5_errors, range(1, 1):uint())
  elseif asked == INVENTORY and range:len() == 2 + IDENTIFIER_LENGTH then
    local uid = range(2, IDENTIFIER_LENGTH)
    item:add(t5_fields.dsfid, range(1, 1))
    item:add(t5_fields.uid, uid, reversed(uid))
    text = "present: " .. reversed(uid)
  elseif range:len() > 1 then
    item:add(t5_fields.data, range(1))
    text = string.format("%d bytes", range:len() - 1)
  end
  shown(pinfo, "Type 5", false, text)
end

local function dissect_clash(tvb, pinfo, tree)
  local tail, length = tvb(3, 1):uint(), tvb:len() - HEADER_LENGTH
  local common = tail > 0 and 8 * (length - 1) + tail or 8 * length
  tree:add(frame_fields.common, common):set_generated()
  shown(pinfo, technologies[tvb(2, 1):uint()] or "NFC", false, string.format("Clash behind %d common bits", common))
end

local header_fields = {
  { frame_fields.version, 0, 1 }, { frame_fields.kind, 1, 1 }, { frame_fields.technology, 2, 1 },
  { frame_fields.tail, 3, 1 },
}

function other.dissector(tvb, pinfo, tree)
  show_fate(tree)
  if tvb:len() < HEADER_LENGTH then
    return
  end
  local item, kind = tree:add(other, tvb()), tvb(1, 1):uint()
  add_all(item, tvb, header_fields)
  if tvb:len() > HEADER_LENGTH then
    item:add(frame_fields.data, tvb(HEADER_LENGTH))
  end
  if not records[pinfo.number] then
    if kind == REQUEST then
      air.asked_v = tvb:len() > HEADER_LENGTH + 1 and tvb(HEADER_LENGTH + 1, 1):uint() or nil
    end
    records[pinfo.number] = { asked = air.asked_v }
  end
  local length, is_v = tvb:len() - HEADER_LENGTH, tvb(2, 1):uint() == 1
  if kind == CLASH then
    dissect_clash(tvb, pinfo, item)
  elseif is_v and kind == REQUEST and length > 1 then
    dissect_t5_request(tvb(HEADER_LENGTH), pinfo, tree)
  elseif is_v and kind == ANSWER and length > 0 then
    dissect_t5_answer(tvb(HEADER_LENGTH), pinfo, tree, records[pinfo.number].asked)
  else
    shown(pinfo, "NFC", kind == REQUEST, string.format("%s of %d bytes", named(kinds, kind), length))
  end
end

encapsulations:add(wtap_encaps.ISO14443, nfc)
encapsulations:add(wtap_encaps.USER0, other)
