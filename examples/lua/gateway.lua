-- An order gateway. An order is a line of CSV on channel 1: customer,account,symbol,side,quantity,price in cents. Each
-- is answered by a line on channel 1. It has a leak: where an order has no account, the answer tells the one before.
local account
for line in io.open("1"):lines() do
  local customer, told, symbol, side, quantity, price = line:match("^(%w+),(%w*),(%w+),(%u),(%d+),(%d+)$")
  if told ~= "" then account = told end
  print(string.format("ACK,%s,%s,%.2f", customer, account, quantity * price / 100))
end
